// A client of the server that this page came from: both have one origin, as tools/nginx.conf serves them. It is a plain script, because a
// browser sends Origin for a module, which a proxy without this address in its map refuses.
'use strict'

// The address without a name and a password, which a browser refuses to ask with.
const address = location.origin
// The longest body that the server takes, in bytes.
const longest = 33_554_432
const largest = { congress: 99, senate: 999, house: 999 }

// What each refusal means, and what to do, as `plandesk explain` has it for the requests of this page.
const refusals = {
  BadName: ['The name of the plan has other characters than letters, digits, dots, hyphens and underscores, or more than 64.',
    'Give another name.'],
  BadQuery: ['The server does not take this kind or this number of districts.', 'Give 1 to 99 districts for congress, 1 to 999 otherwise.'],
  BadNumber: ['The number of the revision is not 1 to 5 digits.', 'Load this page again.'],
  NotSealed: ['The server has no census files yet.', 'Ask whoever runs it to load them.'],
  NoPlan: ['No plan has this name now.', 'It was deleted. Look at the list above.'],
  NoRevision: ['The plan has no revision of this number now.', 'It was deleted and made again. Look at the list above.'],
  PlanExists: ['A plan has this name already.', 'Give another name.'],
  Stale: ['Somebody else saved a revision after this page showed the list. Nothing was overwritten.',
    'Look at that revision in the list above, and save yours again if it is still right.'],
  BadBody: ['The file is not a block assignment file for this plan.', 'See the code.'],
  BodyTooLarge: ['The file has more than 32 MiB (33,554,432 bytes).', 'Check whether it is another file.'],
  Limit: ['The server has 65,535 plans, or the plan has 65,535 revisions, and takes no more.', 'Save further revisions under another plan.'],
  Full: ['The store has no room for this change.', 'Delete plans and try again later, or ask whoever runs the server for a larger store.'],
  Memory: ['The server had no memory for this request, and nothing changed.', 'Try again.'],
  Halted: ['The store of the server failed, and it accepts no changes.', 'Tell whoever runs it.']
}
const codes = {
  B1: ['The first line is not BLOCKID|DISTRICT.', 'Turn the file into a block assignment file: tools/plan FILE > plan.txt.'],
  B2: ['The line is not a block of 15 digits, a bar, and a district of 1 to 3 digits, ZZ, ZZZ or nothing.',
    'Look for commas, spaces and lost leading zeros, or use tools/plan.'],
  B3: ['The census files of the server have no such block.', 'Check whether the plan is of another state or another census.'],
  B4: ['The block is in the file twice.', 'List each block once.'],
  B5: ['The district is 0, or above the number of districts of the plan.', 'Check the number, or choose a plan with more districts.']
}
// The refusals of a proxy, by their status.
const statuses = {
  401: ['The proxy asks for a name and a password.', 'Load this page again.'],
  403: ['The proxy does not allow this to your name. Some names may only read.', 'Ask whoever runs the server.'],
  413: refusals.BodyTooLarge,
  421: ['The proxy does not serve this name.', 'Use the address that whoever runs the server gave you.'],
  502: ['The proxy answers, and the server behind it does not.', 'Try again later, or tell whoever runs it.']
}
statuses[503] = statuses[504] = statuses[502]

// What is shown of a refusal: what happened, what it means, what to do, and the line of the file.
class Refused extends Error {
  constructor(head, [means, todo], line) {
    super(head)
    Object.assign(this, { means, todo, line })
  }
}

function firstLine(text) {
  return text.split('\n', 1)[0].replace(/\r$/, '')
}

// A line of what was sent, cut if it is long.
function lineOf(text, number) {
  const line = (text.split('\n')[number - 1] ?? '').replace(/\r$/, '')
  return line.length > 80 ? `${line.slice(0, 80)} …` : line
}

// Why the server or its proxy refused.
async function refusalOf(status, text, body) {
  let said = {}
  try { said = JSON.parse(text) } catch { /* a proxy's page */ }
  if (!said?.error) {
    // the word of tools/nginx.conf
    const words = text.startsWith('other origin')
      ? [`The proxy’s map of origins lacks the address of this page, ${address}.`,
        'Ask whoever runs the proxy to add it to the map $foreign of its configuration, with its port.']
      : statuses[status] ?? ['What answered is not plandesk.', 'Check the address.']
    return new Refused(`Refused: ${status}`, words)
  }
  const { error, code, line } = said
  const words = codes[code] ?? refusals[error] ?? ['', `Run plandesk explain ${error}.`]
  const fault = new Refused(`Refused: ${[`${status} ${error}`, code, line && `line ${line}`].filter(Boolean).join(', ')}`, words,
    line && body ? lineOf(typeof body === 'string' ? body : await body.text(), line) : undefined)
  return Object.assign(fault, { error })
}

// The text of an answer; a refusal is thrown.
async function ask(method, path, body) {
  const answer = await fetch(address + path, { method, body })
  const text = await answer.text()
  if (answer.ok) return text
  throw await refusalOf(answer.status, text, body)
}

async function plans() {
  return JSON.parse(await ask('GET', '/plans')).plans
}

// Posts a text or a file as the plan's next revision.
async function save(plan, after, body) {
  const made = JSON.parse(await ask('POST', `/plans/${plan}/revisions?after=${after}`, body))
  return `Revision ${made.revisions} of ${made.plan} is saved.`
}

// Posts what `edit` makes of the plan's last revision as the next one. If somebody else's revision came first, the new last one is read
// and edited in its turn.
async function change(plan, edit) {
  for (;;) {
    const last = (await plans()).find(found => found.name === plan)?.revisions ?? 0
    const text = last ? await ask('GET', `/plans/${plan}/revisions/${last}`) : 'BLOCKID|DISTRICT\n'
    try {
      return await save(plan, last, edit(text))
    } catch (fault) {
      if (fault.error !== 'Stale') throw fault
    }
  }
}

// The text with these blocks in the district; the other lines stay.
function moved(text, blocks, district) {
  const taken = new Set(blocks)
  const others = text.split('\n').filter(line => line && !taken.has(line.split('|')[0]))
  return [...others, ...blocks.map(block => `${block}|${district}`)].join('\n') + '\n'
}

// What a file is, if it can't be a block assignment file.
async function otherKind(file) {
  const begin = new Uint8Array(await file.slice(0, 4).arrayBuffer())
  const begins = (...bytes) => bytes.every((byte, place) => begin[place] === byte)
  if (file.size === 0) return 'It is empty.'
  if (file.size > longest) return 'It has more than 32 MiB (33,554,432 bytes).'
  if (begins(0x50, 0x4b)) return 'It is a spreadsheet (.xlsx) or another zip file.'
  if (begins(0x1f, 0x8b)) return 'It is compressed by gzip.'
  if (begins(0xff, 0xfe) || begins(0xfe, 0xff)) return 'It is a text in UTF-16.'
  if (begins(0xef, 0xbb, 0xbf)) return 'It begins with a byte order mark.'
  const line = firstLine(await file.slice(0, 1_000).text())
  return line === 'BLOCKID|DISTRICT' ? null : `Its first line is “${lineOf(line, 1)}”, and not “BLOCKID|DISTRICT”.`
}

// ---- the page. All that the server says is put there as text.
const at = id => document.getElementById(id)
// as the page showed them: who saves a file has seen no later revision
let shown = []

function made(name, ...parts) {
  const element = document.createElement(name)
  element.append(...parts)
  return element
}

function cell(text, number = false) {
  const element = made('td', text)
  element.className = number ? 'n' : ''
  return element
}

function row(...cells) {
  return made('tr', ...cells)
}

function button(plan) {
  // an address with such a part means another page to a browser
  if (plan.name === '.' || plan.name === '..') return 'no browser can ask for this name'
  if (plan.revisions === 0) return 'it has no revision'
  const element = made('button', `revision ${plan.revisions}`)
  element.addEventListener('click', () => during(() => audit(plan)))
  return element
}

const districts = size => size === 1 ? '1 district' : `${size} districts`

// The bounds of the numbers that the forms take, by what is chosen.
function bound() {
  const { make, move } = document.forms
  make.elements.districts.max = largest[make.elements.kind.value]
  const plan = shown.find(each => each.name === move.elements.plan.value)
  move.elements.district.max = plan ? plan.districts : 999
}

async function list() {
  shown = await plans()
  at('plans').replaceChildren(...shown.map(plan =>
    row(cell(plan.name), cell(`${plan.kind}, ${districts(plan.districts)}`), cell(button(plan)))))
  for (const form of ['save', 'move']) {
    const { plan } = at(form).elements, chosen = plan.value
    plan.replaceChildren(...shown.map(each => new Option(each.name)))
    if (shown.some(each => each.name === chosen)) plan.value = chosen
  }
  bound()
}

async function audit(plan) {
  const report = JSON.parse(await ask('GET', `/plans/${plan.name}/revisions/${plan.revisions}/audit`))
  const [head, verdict] = at('audit').children
  head.textContent = `${plan.name}, revision ${plan.revisions}`
  verdict.textContent = (report.broken.length ? `It breaks ${report.broken.join(', ')}.` : 'It breaks no clause that was judged.') +
    (report.not_asked.length ? ` Not judged: ${report.not_asked.join(', ')}.` : '')
  at('audit').querySelector('tbody').replaceChildren(...report.populations.map((people, place) =>
    row(cell(place + 1), cell(people.toLocaleString('en'), true))))
  at('audit').hidden = false
  return `The audit of ${plan.name} is below.`
}

// The paragraphs about a fault.
function paragraphs(fault) {
  if (!(fault instanceof Refused)) {
    return [made('p', 'The server gave no answer.'), made('p', 'What to do: check the network, and whether the server runs.')]
  }
  const parts = [made('p', fault.message), made('p', fault.means), made('p', `What to do: ${fault.todo}`)]
  if (fault.line !== undefined) parts.splice(1, 0, made('p', 'The line is ', made('code', fault.line), '.'))
  return parts.filter(part => part.textContent)
}

// Does what a form or a button asks for, and shows the result.
async function during(work) {
  const said = at('said')
  try {
    said.replaceChildren(made('p', await work()))
    said.className = ''
  } catch (fault) {
    said.replaceChildren(...paragraphs(fault))
    said.className = 'refused'
    said.scrollIntoView({ block: 'nearest' })
  }
}

function on(form, work) {
  at(form).addEventListener('submit', event => {
    event.preventDefault()
    const given = event.target.elements
    during(async () => {
      // the list is read again also if the server refused
      try { return await work(given) } finally { await list().catch(() => {}) }
    })
  })
}

on('make', async given => {
  const plan = given.plan.value
  await ask('PUT', `/plans/${plan}?kind=${given.kind.value}&districts=${given.districts.value}`)
  return `The plan ${plan} is made. It has no revision yet.`
})
on('save', async given => {
  const [file] = given.file.files, kind = await otherKind(file)
  if (kind) throw new Refused(`Not sent: ${file.name} is not a block assignment file. ${kind}`, ['', codes.B1[1]])
  const after = shown.find(plan => plan.name === given.plan.value).revisions
  return save(given.plan.value, after, file)
})
on('move', async given => {
  const blocks = given.blocks.value.split(/\s+/).filter(Boolean)
  return change(given.plan.value, text => moved(text, blocks, given.district.value))
})
at('make').addEventListener('input', bound)
at('move').addEventListener('input', event => {
  bound()
  const { blocks } = event.currentTarget.elements
  const wrong = blocks.value.split(/\s+/).find(word => word && !/^[0-9]{15}$/.test(word))
  blocks.setCustomValidity(wrong ? `“${wrong}” is not the 15 digits of a block.` : '')
})
during(async () => { await list(); return 'These are the plans of this server.' })
