// What the page shows of one turn: text for each of its parts, from the state after the turn.

const esc = text => String(text).replace(/[&<>"]/g, c => ({ '&': '&amp;', '<': '&lt;', '>': '&gt;', '"': '&quot;' }[c]));
const count = (n, one, many) => `${n} ${n === 1 ? one : many ?? one + 's'}`;
const isGood = answer => /^(given|freed|wrote|value|poked|discarded|moved)\b/.test(answer);
const who = w => `<span class="who" data-w="${w}">w${w}</span>`;

// A word in a reader's words.
function nameOf(word) {
  const [kind, a, b] = word, [f, i] = kind === 'next' || kind === 'word' ? a.split('.') : [];
  return { cpu: `CPU word of CPU ${a}, ${b}`, list: `partial list of CPU ${a}, ${b}`, slab: `slab word of slab ${a}`, link: `link of slab ${a}`,
    next: `free pointer of object ${i} of slab ${f}`, word: `word ${b} of object ${i} of slab ${f}`, board: `board, number ${a}`,
    lock: a === 'node' ? `lock of the node, ${b}` : 'lock of the page pool', node: `node list, ${a}`, pool: 'page pool', string: 'slabs in hand',
    checked: `checked slabs, ${a}` }[kind];
}

// What a turn did to one of these words, for the ring around it: a class, the worker's colour and a few words.
function touch(t, ...keys) {
  if (!t) return '';
  let did = '';
  if (keys.includes(t.key)) {
    const lock = t.word[0] === 'lock';
    did = t.lost ? (lock ? 'waits' : 'is too late') : !t.writes ? 'loads' : lock ? (t.step === 'store' ? 'gives back' : 'takes') : t.says.includes('->') ? 'changes' : 'takes';
  } else if (t.notes.some(n => n.mark === '+' && keys.includes(n.key))) did = 'changes';
  return did ? ` touched" data-w="${t.w}" data-did="w${t.w} ${did}` : '';
}

// ---- the turn in words

function nowPart(v, s, t) {
  if (!t) return beginPart(v);
  const spot = SPOTS.get(t.spot) ?? {}, by = t.by === 'profile' ? '<span class="dim">no function of the kernel</span>' : `<code>${esc(t.by)}()</code>`;
  return `<h2>${who(t.w)} \u00b7 ${esc(t.event)} \u00b7 ${esc(t.spot)} ${by}</h2><p>${esc(spot.does ?? '')}</p>`
    + (spot.linux ? `<p class="linux">Linux 6.1: ${esc(spot.linux)}</p>` : '') + wordPart(t) + whyPart(v, t) + t.notes.map((n, i) => metPart(n, n.spot === t.notes[i - 1]?.spot)).join('');
}

function beginPart(v) {
  const r = v.round, items = r.items.length ? `<p class="dim">Before it: ${r.items.map(esc).join('; ')}</p>` : '';
  const first = r.first.map(n => metPart(n)).join('');
  return `<h2>Round ${r.number}, before the first turn</h2>${items}
    <p>${count(r.workers, 'worker')} ${r.workers === 1 ? 'makes all' : 'take'} ${count(r.turns.length, 'turn')}, one atomic step each.</p>${first}
    <p class="linux"><kbd>\u2192</kbd> and <kbd>\u2190</kbd> make one turn on and back, <kbd>\u2193</kbd> and <kbd>\u2191</kbd> lead to an answer or a lost exchange,
    <kbd>Space</kbd> plays; <kbd>?</kbd> shows all keys.</p>`;
}

// The word of the turn, field by field: as it was and is, or of a lost exchange as it was noted, wanted and found.
function wordPart(t) {
  const [kind] = t.word, { was, is } = fieldsIn(kind, t.says), names = FIELDS[kind];
  const step = t.lost ? 'exchange <span class="lost">\u2715 lost</span>' : t.step === 'exchange won' ? 'exchange <span class="good">\u2713 won</span>' : esc(t.step);
  const caption = `<span class="word">${esc(nameOf(t.word))}</span> <span class="mono dim">${esc(t.key)}</span> \u00b7 ${step}`;
  if (!names) {
    const told = t.lost ? `wanted <b>${esc(was.is)} \u2192 ${esc(is.is)}</b>, found <span class="lost">${esc(t.found)}</span>`
      : t.step === 'load' ? `says <b>${esc(is.is)}</b>` : was.is === is.is ? `stays <b>${esc(is.is)}</b>` : was.is === undefined ? `is now <b>${esc(is.is)}</b>` : `<b>${esc(was.is)} \u2192 ${esc(is.is)}</b>`;
    return `<p>${caption} <span class="mono">${told}</span></p>`;
  }
  const row = (title, cell) => `<tr><th scope="row">${title}</th>${names.map(cell).join('')}</tr>`;
  const changed = k => was[k] !== is[k] ? ' class="new"' : '';
  let rows = '';
  if (t.step === 'load') rows = row('says', k => `<td>${esc(is[k])}</td>`);
  else if (!t.lost) rows = names.every(k => was[k] === is[k]) ? row('stays', k => `<td>${esc(is[k])}</td>`)
    : row('was', k => `<td>${esc(was[k])}</td>`) + row('is now', k => `<td${changed(k)}>${esc(is[k])}</td>`);
  else {
    const found = t.found?.startsWith('cache ') ? {} : fieldsIn(kind, t.found ?? '').is;
    rows = row('noted', k => `<td>${esc(was[k])}</td>`) + row('wanted', k => `<td${changed(k)}>${esc(is[k])}</td>`)
      + row('found', k => k in found ? `<td class="off">\u2260 ${esc(found[k])}</td>` : `<td>${esc(was[k])}</td>`);
  }
  return `<table><caption>${caption}</caption><thead><tr><td></td>${names.map(k => `<th scope="col">${k}</th>`).join('')}</tr></thead>`
    + `<tbody>${rows}</tbody></table>`;
}

// The turns in which others changed a word, between two turns.
function changesOf(round, key, from, to) {
  return round.turns.slice(from, to).filter(u => u.key === key && u.writes && fieldsIn(u.word[0], u.says).was.is !== undefined | u.says.includes('->'));
}
const saysChange = u => `${who(u.w)} at turn ${u.n} (${esc(u.spot)} of ${esc(u.event)})`;

// Why an exchange was lost: who changed the word, and when. Why a second look goes back.
function whyPart(v, t) {
  const turns = v.round.turns, lock = t.word[0] === 'lock';
  if (lock && t.lost) {
    const u = turns.slice(0, t.n - 1).reverse().find(u => u.key === t.key && u.step === 'exchange won');
    return u ? `<p>${who(u.w)} has this lock since turn ${u.n} (${esc(u.spot)} of ${esc(u.event)}): w${t.w} waits, and tries it again at its next turn.</p>` : '';
  }
  if (!t.lost && t.spot !== 'LoadLocked') return '';
  const at = turns.slice(0, t.n - 1).map(u => u.w === t.w && u.key === t.key && u.step === 'load').lastIndexOf(true);
  if (at < 0) return '';
  const changes = changesOf(v.round, t.key, at + 1, t.n - 1).filter(u => u.w !== t.w);
  if (!t.lost) return turns[at].says === t.says ? `<p>It is what it was when it was noted, at turn ${at + 1}.</p>`
    : `<p><span class="lost">\u2260</span> It isn't what was noted at turn ${at + 1}. ${changedBy(changes)}, so the lock is given back and the free begins anew.</p>`;
  return `<p>w${t.w} noted this word at turn ${at + 1}. ${changedBy(changes)}, so w${t.w} has to look again.</p>`;
}
function changedBy(changes) {
  const u = changes[changes.length - 1], before = changes.slice(-3, -1).map(saysChange);
  if (!u) return 'It was changed since';
  if (changes.length === 1) return `${who(u.w)} changed it at turn ${u.n} (${esc(u.spot)} of ${esc(u.event)})`;
  return `It was changed ${changes.length} times since, by ${before.join(', ')} and ${saysChange(u)}`;
}

function metPart(n, again) {
  if (n.mark === '=') {
    const cut = n.text.indexOf(': '), answer = n.text.slice(cut + 2), good = isGood(answer);
    return `<p class="met">${good ? '<span class="good">\u2713</span>' : '<span class="lost">\u2715</span>'} Answer to ${who(n.w)}, ${esc(n.text.slice(0, cut))}: <b>${esc(answer)}</b></p>`;
  }
  if (n.mark === ':') return `<p class="met">${who(n.w)} has in hand now: <b>${esc(n.text.slice(8))}</b></p>`;
  return `<p class="met">At once, ${esc(n.spot)} <code class="dim">${esc(n.by)}()</code>: <b>${esc(nameOf(n.word))}</b> ${esc(n.says)}.${again ? '' : ` <span class="dim">${esc(SPOTS.get(n.spot)?.does ?? '')}</span>`}</p>`;
}

// ---- caches: CPUs, node list, slabs

function lockPart(s, name) {
  const w = s.locks.get(name);
  return w === undefined || w === null ? '<span class="badge">lock free</span>' : `<span class="badge has" data-w="${w}">lock: w${w}</span>`;
}
function chainPart(row, most) {
  if (!row.length) return '<span class="dim">none</span>';
  const cut = row.length > most ? [...row.slice(0, most - 1), '\u2026', row[row.length - 1]] : row;
  return `<span class="mono">${cut.join(' \u2192 ')}</span>${row.length > most ? ` <span class="dim">(${row.length})</span>` : ''}`;
}

function headPart(c) {
  const what = c.checked ? 'checked' : `a CPU keeps ${count(c.cpuPartial, 'slab')} for later`;
  return `<h2>${esc(c.names.join(', '))} <small class="dim">cache ${esc(c.title)}: slots of ${c.size} bytes, ${c.objects} in a slab, ${what}, empty slabs are kept while the node has fewer than ${c.minPartial}</small></h2>`;
}
function cpuParts(s, c, t) {
  const cpus = c.checked ? [] : c.cpus.map((word, i) => {
    const list = c.lists[i], slabs = slabsFrom(s, list.front, list.count);
    return `<div class="box${touch(t, `cpu ${i} ${c.title}`, `list ${i} ${c.title}`)}"><h3>CPU ${i}</h3>
      <div class="mono">tid ${esc(word.tid)} \u00b7 slab ${shown(word.slab)} \u00b7 head ${shown(word.head)}</div><dl>
      <dt>freelist</dt><dd>${chainPart(word.slab === null ? [] : walk(s, word.slab, word.head), 8)}</dd>
      <dt>partial list</dt><dd>${slabs.length ? chainPart(slabs.map(f => `slab ${f}`), 4) : '<span class="dim">none</span>'}</dd></dl></div>`;
  });
  const node = `<div class="box${touch(t, `node ${c.title}`, `lock node ${c.title}`, `checked ${c.title}`)}"><h3>Node list ${lockPart(s, `node ${c.title}`)}</h3>
    <div>${c.node.length ? c.node.map(f => `<span class="chip">slab ${f}</span>`).join(' ') : '<span class="dim">no slab</span>'}</div>
    ${c.node.length > 1 ? '<div class="dim">head first</div>' : ''}</div>`;
  return cpus.join('') + node;
}

// How wide a cache's slabs are: as wide as their objects side by side, and their facts.
function widthOf(s, c) {
  const most = Math.max(1, ...[...s.slabs.values()].filter(x => x.of === c.title).map(x => x.objects));
  const each = most <= 16 ? 3.15 : most <= 32 ? 2.72 : most <= 64 ? 2.42 : 1.37;
  return `${Math.max(29, Math.min(62, most * each + 1.6)).toFixed(1)}rem`;
}

// The slabs that are drawn: of more than sixty those that are on a CPU, in a hand or touched, and then by number.
const MOST_SLABS = 60;
function drawnSlabs(s, c, roles, t) {
  const all = [...s.slabs].filter(([, x]) => x.of === c.title).map(([f]) => f).sort((a, b) => a - b);
  if (all.length <= MOST_SLABS) return { drawn: all, others: 0 };
  const near = f => t && (t.key === `slab ${f}` || (t.word[1] ?? '').startsWith(`${f}.`)) ? 0 : roles.get(f).some(p => p.kind === 'hand' || p.kind === 'cpu') ? 1 : 2;
  const drawn = all.slice().sort((a, b) => near(a) - near(b) || a - b).slice(0, MOST_SLABS).sort((a, b) => a - b);
  return { drawn, others: all.length - drawn.length };
}

function roleText(role) {
  if (!role) return 'on no list';
  return { cpu: `current on CPU ${role.cpu}`, list: `on CPU ${role.cpu}'s partial list`, node: "on the node's list", string: `in w${role.w}'s hand, in a string`,
    hand: `in w${role.w}'s hand: ${role.role}` }[role.kind];
}

// Of an object: the class of its cell, its sign, the words below and those on hovering.
function placeParts(s, f, x, i, place) {
  const next = s.next.get(f)?.[i], to = x.checked ? '' : next === null || next === undefined ? '\u2192\u00b7' : `\u2192${next}`;
  const nth = n => n === 0 ? 'first' : `number ${n + 1}`;
  switch (place?.kind) {
    case 'held': return ['held', place.o, `w${place.w}`, `held by w${place.w} as object ${place.o}`, place.w.toString(16)];
    case 'board': return ['board', place.o, 'board', `object ${place.o}, on the board: with the caller, who may free it`, '\u2022'];
    case 'cpu': return [`cpu${place.n ? '' : ' head'}`, to, `cpu ${place.cpu}`, `on CPU ${place.cpu}'s freelist, ${nth(place.n)}`, 'c'];
    case 'own': return [`own${place.n ? '' : ' head'}`, x.checked ? '\u00b7' : to, x.checked ? 'free' : 'own', x.checked ? `free, ${nth(place.n)} to be given` : `on the slab's own freelist, ${nth(place.n)}`, 's'];
    case 'hand': return ['hand', to, `w${place.w}`, `in the hand of w${place.w}`, 'h'];
    case 'aside': return ['aside', '\u2715', 'aside', 'set aside: it was found damaged, or free in a damaged slab', '\u2715'];
    default: return ['astray', '?', '', 'in no place', '?'];
  }
}

// All that a slab's part is made from, as a short text: where it is the same, the part is.
function slabKey(s, f, x, c, t, places, roles) {
  const objects = places.map(all => { const p = all[0]; return p ? `${p.kind}${p.w ?? ''}.${p.o ?? ''}.${p.cpu ?? ''}.${p.n ?? ''}` : '?'; });
  const hot = [...hotObjects(s, t, f)], about = (hot.length ? `w${t.w} ${hot}` : '') + touch(t, `slab ${f}`, `link ${f}`);
  return [objects, s.next.get(f) ?? '', x.head, x.inuse, x.frozen, x.listed, x.free?.length, c.node.includes(f), roleText(roles[0]), about].join('|');
}
function slabPart(s, f, x, c, t, places, roles) {
  const size = x.objects <= 16 ? ['', '2.95rem'] : x.objects <= 32 ? ['', '2.5rem'] : x.objects <= 64 ? ['close', '2.2rem'] : ['tiny', '1.15rem'];
  const hot = hotObjects(s, t, f), said = [];
  const cells = places.map((all, i) => {
    const place = all[0], [kind, sign, below, full, letter] = placeParts(s, f, x, i, place);
    const last = said[said.length - 1], group = { kind: kind.split(' ')[0], full: ['cpu', 'own', 'hand', 'aside'].includes(place?.kind) ? full.replace(/,.*/, '') : full };
    if (last && last.full === group.full) last.to = i; else said.push({ ...group, from: i, to: i });
    const w = place?.w === undefined ? '' : ` data-w="${place.w}"`, ring = hot.has(i) ? ` hot" data-w="${t.w}` : '';
    const body = size[0] === 'tiny' ? letter : `${sign}<em>${below}</em>`, index = size[0] === 'tiny' ? '' : `<small>${i}</small>`;
    return `<div class="cell${ring}" title="object ${i} of slab ${f}, at ${f * 4096 + i * c.size + c.pad}: ${full}">${index}<div class="o ${kind}"${w}>${body}</div></div>`;
  });
  const mine = roles[0], badge = (is, yes, no) => `<span class="badge${is ? ' yes' : ''}">${is ? yes : no}</span>`;
  const facts = x.checked ? `<span class="dim">${x.free.length} free, ${x.aside.length} aside of ${x.objects}</span>${badge(c.node.includes(f), 'listed', 'not listed')}`
    : `<span class="mono dim">inuse ${x.inuse} of ${x.objects} \u00b7 own head ${shown(x.head)}</span>${badge(x.frozen, 'frozen', 'not frozen')}${badge(x.listed, 'listed', 'not listed')}`;
  const where = x.checked && mine?.kind !== 'hand' ? '' : `<span${mine?.w === undefined ? '' : ` class="who" data-w="${mine.w}" title="${esc(ROLES[mine.role] ?? '')}"`}>${roleText(mine)}</span>`;
  const label = said.map(g => `${g.from === g.to ? `object ${g.from}` : `objects ${g.from} to ${g.to}`} ${g.full}`).join('; ');
  return `<div class="box slab${touch(t, `slab ${f}`, `link ${f}`)}"><div class="top"><h3>slab ${f}</h3>${facts}${where}</div>
    <div class="strip ${size[0]}" style="--w:${size[1]}" role="img" aria-label="${esc(label)}">${cells.join('')}</div></div>`;
}
// The objects of a slab that a turn is about.
function hotObjects(s, t, f) {
  const out = new Set(), put = at => { const [g, i] = (at ?? '').split('.').map(Number); if (g === f) out.add(i); };
  if (!t) return out;
  if (t.word[0] === 'next' || t.word[0] === 'word') put(t.word[1]);
  if (t.word[0] === 'board') put(t.says.split('->')[0]);
  for (const n of t.notes) {
    if (n.mark === '=') put(n.text.match(/ at (\d+\.\d+)$/)?.[1]);
    if (n.mark === '+' && n.word[0] === 'checked') for (const m of n.says.matchAll(/\b(\d+\.\d+)\b/g)) put(m[1]);
  }
  return out;
}

// ---- page frames

function poolPart(s, log, t) {
  const owner = new Map();
  for (const f of s.slabs.keys()) for (const g of framesOf(s, f)) owner.set(g, { slab: f, of: s.slabs.get(f).of });
  s.hands.forEach((hand, w) => hand.frames.forEach(f => owner.set(f, { w })));
  const same = (a, b) => a?.slab === b?.slab && a?.w === b?.w, join = log.frames > 129, cells = [];
  for (let f = 1; f < log.frames;) {
    const o = owner.get(f);
    let to = f;
    while (join && to + 1 < log.frames && same(owner.get(to + 1), o)) to++;
    const name = to > f ? `${f}..${to}` : f;
    if (o === undefined) cells.push(`<div class="f" title="free">${name}<small>free</small></div>`);
    else if (o.w !== undefined) cells.push(`<div class="f has" data-w="${o.w}" title="in the hand of w${o.w}">${name}<small>w${o.w}</small></div>`);
    else cells.push(`<div class="f used" title="of slab ${o.slab}, cache ${esc(o.of)}">${name}<small>slab ${o.slab}</small></div>`);
    f = to + 1;
  }
  return `<section class="card${touch(t, 'pool', 'lock pool')}" aria-label="Page frames">`
    + `<h2>Page frames <small class="dim">${s.pool.size} free</small> ${lockPart(s, 'pool')}</h2><div class="frames">${cells.join('')}</div></section>`;
}

// ---- workers

function workerPart(v, s, w, t) {
  const r = v.round, answers = [], take = n => { if (n.mark === '=' && n.w === w) answers.push(n.text.slice(n.text.indexOf(': ') + 2)); };
  r.first.forEach(take);
  for (let i = 0; i < v.at; i++) r.turns[i].notes.forEach(take);
  const mine = r.events.filter(e => e.worker === w), next = r.turns.slice(v.at).find(u => u.w === w);
  const last = r.turns.slice(0, v.at).reverse().find(u => u.w === w), done = answers.length;
  const goesOn = next && last && next.event === last.event && mine[done - 1]?.head === next.event && mine[done]?.head !== next.event;
  const stand = !next ? mine.length : goesOn ? done - 1 : done, from = mine.length <= 10 ? 0 : Math.max(0, Math.min(stand - 3, mine.length - 9)), to = mine.length <= 10 ? mine.length : from + 9;
  const rows = mine.slice(from, to).map((e, k) => {
    const i = from + k, answer = answers[i], open = i === stand;
    const mark = answer === undefined ? (open && last?.event === e.head ? '\u25b8' : '\u00b7') : isGood(answer) ? '\u2713' : '\u2715';
    const kind = mark === '\u2713' ? 'good' : mark === '\u2715' ? 'lost' : '';
    return `<li class="ev${open ? ' cur' : ''}"${open ? ' aria-current="step"' : ''}><span class="${kind}">${mark}</span>`
      + `<span>${esc(e.text)}</span><span class="a ${kind === 'lost' ? 'lost' : ''}">${esc(answer ?? '')}${open && goesOn ? ', goes on' : ''}</span></li>`;
  });
  if (from) rows.unshift(`<li class="ev dim"><span>\u2026</span><span>${count(from, 'event')} before</span></li>`);
  if (to < mine.length) rows.push(`<li class="ev dim"><span>\u2026</span><span>${count(mine.length - to, 'event')} more</span></li>`);
  const held = [...s.held[w]].map(([o, [f, i]]) => `<span class="chip has" data-w="${w}">${o} = ${f}.${i}</span>`).join(' ');
  const locks = [...s.locks].filter(([, x]) => x === w).map(([name]) => `<span class="chip has" data-w="${w}">${esc(name)}</span>`).join(' ');
  const stands = !next ? (r.end ? 'at its end' : 'here the log ends') : last?.lost && last.word[0] === 'lock' && next.key === last.key ? `waits at <b>${esc(next.spot)}</b>` : `next: <b>${esc(next.spot)}</b>`;
  return `<section class="card worker${t && t.w === w ? ' on' : ''}" data-w="${w}" aria-label="Worker ${w}">`
    + `<h2>Worker ${w} <small class="dim">${stands}</small></h2><ul>${rows.join('')}</ul>
    <dl class="facts"><dt>holds</dt><dd>${held || '<span class="dim">nothing</span>'}</dd><dt>in hand</dt><dd>${handPart(s.hands[w])}</dd>
    ${locks ? `<dt>locks</dt><dd>${locks}</dd>` : ''}${notedPart(v, s, w, next)}</dl></section>`;
}

function handPart(hand) {
  const slabs = hand.slabs.map(p => `slab ${p.slab} ${p.role}${p.from === null ? '' : `, from ${p.from}`} <span class="dim">(${ROLES[p.role]})</span>`);
  const string = hand.string ? [`a string of ${count(hand.string.count, 'slab')} from slab ${hand.string.front}`] : [];
  const frames = hand.frames.length ? [`${hand.frames.length === 1 ? 'frame' : 'frames'} ${rangesOf(hand.frames)}`] : [];
  return [...slabs, ...string, ...frames].join('<br>') || '<span class="dim">nothing</span>';
}

// The word that a worker noted and relies on where it stands, and whether it is still so.
function notedPart(v, s, w, next) {
  const kind = next && RELIES[next.spot], turns = v.round.turns;
  if (!kind) return '';
  let at = v.at - 1;
  while (at >= 0 && !(turns[at].w === w && turns[at].word[0] === kind && turns[at].step === 'load')) at--;
  if (at < 0 || turns[at].event !== next.event) return '';
  const note = turns[at], said = fieldsIn(kind, note.says).is, now = wordNow(s, note.word) ?? {}, off = FIELDS[kind].filter(k => said[k] !== now[k]);
  const changes = changesOf(v.round, note.key, at + 1, v.at).filter(u => u.w !== w), loaded = next.spot === 'Pop' && turns.slice(at, v.at).reverse().find(u => u.w === w && u.spot === 'LoadNext');
  const what = `noted at turn ${note.n}: <b>${esc(note.key)}</b> <span class="mono">${FIELDS[kind].map(k => off.includes(k) ? `<b>${k} ${esc(said[k])}</b>` : `${k} ${esc(said[k])}`).join(' ')}</span>${loaded ? `, next <span class="mono">${esc(loaded.says)}</span>` : ''}`;
  if (!off.length) return `<dd class="noted"><span class="good">\u2713</span> ${what} <span class="dim">${changes.length ? 'so again' : 'still so'}</span></dd>`;
  return `<dd class="noted stale">\u2260 ${what}<br><b>changed since</b>: now <span class="mono">${off.map(k => `${k} ${esc(now[k] ?? 'gone')}`).join(' ')}</span>${changes.length ? `, by ${saysChange(changes[changes.length - 1])}` : ''}</dd>`;
}

function legendPart(tiny, checked) {
  const cell = (kind, sign, letter, text) => `<span><i class="o ${kind}" data-w="0">${tiny ? letter : sign}</i>${text}</span>`;
  const cells = [cell('held', '7', '0', 'held by a worker'), cell('board', '7', '\u2022', 'on the board'), cell('cpu', '\u21924', 'c', "on a CPU's freelist"),
    cell('own', '\u21924', 's', checked ? "slab's own, or free" : "slab's own freelist"), cell('hand', '\u21924', 'h', "in a worker's hand"), cell('cpu head', '\u21924', 'c', 'first of its freelist')];
  if (checked) cells.push(cell('aside', '\u2715', '\u2715', 'set aside'));
  const signs = tiny ? '' : '<p>7: the number that it has in the trace. \u21924: the free pointer, to object 4; \u2192\u00b7 ends a freelist.</p>';
  return `<h2 class="dim">Places of objects</h2>${cells.join('')}${signs}`;
}

// ---- lanes, and the round as a whole

// The part of a round that the lanes show: all turns where they fit, else a page of them with the turn on it.
function windowOf(turns, at, fit) {
  if (turns <= fit) return [0, turns];
  const step = Math.max(1, fit - 4), from = Math.min(turns - fit, Math.max(0, Math.floor(Math.max(0, at - 1) / step) * step - 2));
  return [from, from + fit];
}
function lanesPart(v, from, to, fit) {
  const { turns, workers } = v.round, low = workers > 6, out = [];
  for (let w = 0; w < workers; w++)
    out.push(`<div class="w" data-w="${w}" style="grid-area:${w + 2}/1">w${w}</div><div class="rail" style="grid-area:${w + 2}/2/auto/-1"></div>`);
  for (let i = from; i < to; i++) {
    const t = turns[i], answer = t.notes.find(n => n.mark === '='), sign = t.lost ? '\u2715 ' : answer ? (isGood(answer.text.slice(answer.text.indexOf(': ') + 2)) ? '\u2713 ' : '\u2717 ') : '';
    out.push(`<div class="n${i === v.at - 1 ? ' at' : ''}" style="grid-area:1/${i - from + 2}">${t.n}</div>`
      + `<div class="t${t.lost ? ' miss' : ''}${i >= v.at ? ' late' : ''}" data-w="${t.w}" data-n="${t.n}" style="grid-area:${t.w + 2}/${i - from + 2}" title="turn ${t.n}: w${t.w}, ${esc(t.event)}, ${esc(t.spot)}, ${esc(t.step)}">${sign}${esc(t.spot)}</div>`);
  }
  if (v.at > from && v.at <= to) out.push(`<div class="frame" style="grid-area:1/${v.at - from + 1}/${workers + 2}/auto"></div>`);
  const t = turns[v.at - 1], columns = Math.max(to - from, Math.min(fit, 9));
  const label = `Lanes of ${count(workers, 'worker')}, turns ${from + 1} to ${to}. ${t ? `Shown: turn ${t.n}, w${t.w}, ${t.spot}${t.lost ? ', lost' : ''}.` : 'No turn is made yet.'}`;
  return { html: out.join(''), columns, low, label };
}
function wholePart(round) {
  const n = round.turns.length, paths = Array.from({ length: round.workers }, () => ''), miss = [];
  for (let i = 0; i < n;) {
    const w = round.turns[i].w;
    let j = i;
    while (j < n && round.turns[j].w === w) { if (round.turns[j].lost) miss.push(`M${j} ${w * 4}h1v4h-1z`); j++; }
    paths[w] += `M${i} ${w * 4 + 1}h${j - i}v2h${i - j}z`;
    i = j;
  }
  const height = Math.min(40, round.workers * 8);
  return `<svg viewBox="0 0 ${n} ${round.workers * 4}" preserveAspectRatio="none" style="height:${height}px">${paths.map((d, w) => `<path data-w="${w}" d="${d}"/>`).join('')}<path class="miss" d="${miss.join('')}"/></svg>`;
}

// ---- the log around the turn

function logLines(v) {
  const { round, at } = v, n = round.turns.length, from = Math.max(0, at - 30), to = Math.min(n, at + 30), out = [];
  const part = (name, kind, text, turn) => out.push([name, `<div class="${kind}"${turn ? ` data-n="${turn}"` : ''}>${esc(text)}</div>`]);
  if (from) part('before', 'dim', `   \u2026 ${count(from, 'turn')} before`);
  for (let i = from; i < to; i++) {
    const t = round.turns[i], lines = [`${i === at - 1 ? '\u25b6' : ' '}${t.lost ? '\u2715' : ' '} ${t.line}`];
    for (const k of t.notes) lines.push(`${k.mark === '=' ? (isGood(k.text.slice(k.text.indexOf(': ') + 2)) ? ' \u2713' : ' \u2717') : '  '} ${k.line}`);
    part(t.n, `t${i === at - 1 ? ' cur' : ''}${i >= at ? ' late' : t.lost ? ' miss' : ''}`, lines.join('\n'), t.n);
  }
  if (to < n) part('behind', 'dim', `   \u2026 ${count(n - to, 'turn')} behind`);
  return out;
}
// What the log has behind the last turn: totals, replies, picks.
function tailPart(v) {
  const { round, log, at } = v, out = [];
  if (at < round.turns.length) return '';
  out.push(`<h3>${esc(round.end || 'The log ends here.')}</h3>`);
  if (round.replies.length) out.push(`<div class="mono">${[...round.replies, ...round.damages].map(esc).join('\n')}</div>`);
  if (round.picks) out.push(`<p class="dim">The picks of this round: <span class="mono">${esc(round.picks)}</span></p>`);
  const rest = round === log.rounds[log.rounds.length - 1] ? [...log.items, log.total, log.fault].filter(Boolean) : [];
  if (rest.length) out.push(`<div class="mono">${rest.map(esc).join('\n')}</div>`);
  return out.join('');
}
