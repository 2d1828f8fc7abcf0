// jupiter.mjs BUG SESSIONS FOLDER: random sessions of Jupiter, an editor whose server orders all changes, each judged with the weak list
// specification as its goal. Prints for each one line: the number of its seed, `passes` or `fails`, and the verdict. Its trace is
// saved in the folder. The bug is `none`, or one that is planted:
//
//     tie        of inserts at one position, that which is there first stands first
//     unmapped   an insert's position is not mapped over a delete before it
//     double     a delete of what is deleted already deletes what stands there now
//     dropped    a change is lost on its way to client 0: of odd seeds one of the first, of even ones the last
//
// A client applies its own changes at once and tells the server, which puts all changes into one order. Both map what they receive
// over what the other side does not have yet. A client of an even number sends one change at a time, others all at once.
//
// engine.mjs plays its clients and its server by plans.
import { pathToFileURL } from "node:url"
import { Recording } from "../../../recorders/domepeeler.mjs"

const [bug, sessions, folder] = process.argv.slice(2)
const DELETE = "delete", INSERT = "insert", NOTHING = "nothing"

// Numbers below the limit, the same in each run (a linear congruential generator).
function numbers(seed) {
  return (limit) => {
    seed = (Math.imul(seed, 1664525) + 1013904223) >>> 0
    return Math.floor((seed / 2 ** 32) * limit)
  }
}

// The change as it is after another one, which `isHere` already where the two meet.
function mapped(change, over, isHere) {
  if (over.kind === NOTHING || change.kind === NOTHING) return change
  const { at } = change
  if (over.kind === INSERT) {
    const isFirst = bug === "tie" ? !isHere : change.client < over.client
    const stays = at < over.at || (at === over.at && change.kind === INSERT && isFirst)
    return stays ? change : { ...change, at: at + 1 }
  }
  if (change.kind === INSERT) return at <= over.at || bug === "unmapped" ? change : { ...change, at: at - 1 }
  if (at === over.at && bug !== "double") return { ...change, kind: NOTHING }
  return at <= over.at ? change : { ...change, at: at - 1 }
}

// What arrives, as it is after those that wait here, which are mapped over it.
function crossed(arriving, waiting) {
  for (let place = 0; place < waiting.length; place++) {
    const here = waiting[place]
    if (here === null) continue // the server's word that a client's own change has its place
    waiting[place] = mapped(here, arriving, false)
    arriving = mapped(arriving, here, true)
  }
  return arriving
}

function apply(list, { kind, at, name }) {
  if (kind === INSERT) list.splice(at, 0, name)
  else if (kind === DELETE) list.splice(at, 1)
}

export class Client {
  constructor(number, server, recording) {
    Object.assign(this, { number, server, recording })
    this.list = []
    this.waiting = [] // own changes of which the server has not told
    this.sent = 0 // how many of these it was told of
    this.received = 0 // messages of the server
  }

  change(change, record) {
    apply(this.list, change)
    this.waiting.push({ ...change, client: this.number, n: record() })
    this.send()
  }

  insert(name, at) {
    this.change({ kind: INSERT, at, name }, () => this.recording.insert(this.number, name, at, this.list))
  }

  delete(at) {
    const name = this.list[at]
    this.change({ kind: DELETE, at, name }, () => this.recording.delete(this.number, name, this.list))
  }

  send() {
    const most = this.number % 2 ? Infinity : 1
    while (this.sent < Math.min(this.waiting.length, most)) {
      const change = { ...this.waiting[this.sent++] }
      this.server.inbox[this.number].push({ change, received: this.received })
    }
  }

  take(message) {
    this.received += 1
    if (message === null) {
      this.waiting.shift()
      this.sent -= 1
      this.send()
      return
    }
    apply(this.list, crossed(message, this.waiting))
    this.recording.received(this.number, message.client, message.n)
    this.recording.read(this.number, this.list)
  }
}

export class Server {
  constructor(clients) {
    this.inbox = Array.from({ length: clients }, () => [])
    this.outbox = Array.from({ length: clients }, () => [])
    this.open = Array.from({ length: clients }, () => []) // what each client was told, and may not have had when it sent the next
    this.told = Array(clients).fill(0) // how many messages before these it has had
  }

  take(client) {
    const { change, received } = this.inbox[client].shift()
    this.open[client].splice(0, received - this.told[client])
    this.told[client] = received
    const placed = crossed(change, this.open[client])
    this.outbox.forEach((out, other) => {
      const message = other === client ? null : placed
      out.push(message)
      this.open[other].push(message)
    })
  }
}

function session(seed) {
  const random = numbers(Math.imul(seed, 0x9e3779b1)), size = 2 + random(3)
  const recording = new Recording(size), server = new Server(size)
  const clients = Array.from({ length: size }, (_, number) => new Client(number, server, recording))
  const lost = 1 + random(4)
  let edits = 16 + random(17), names = 0, arrived = 0
  const isLast = () => !edits && !server.inbox.some((box) => box.length) && !server.outbox[0].length &&
    clients.every(({ sent, waiting }) => sent === waiting.length)
  const isLost = (client, message) => bug === "dropped" && client.number === 0 && message !== null &&
    (seed % 2 ? ++arrived === lost : isLast())
  const deliver = (client) => {
    const message = server.outbox[client.number].shift()
    if (isLost(client, message)) client.received += 1
    else client.take(message)
  }
  const edit = (client) => {
    const length = client.list.length
    if (length && random(5) < 2) client.delete(random(length))
    else client.insert(`e${++names}`, random(length + 1))
    edits -= 1
  }
  const isOpen = () => server.inbox.some((box) => box.length) || server.outbox.some((box) => box.length)
  while (edits || isOpen()) {
    const client = clients[random(size)], what = random(3)
    if (what === 0 && edits) edit(client)
    else if (what === 1 && server.inbox[client.number].length) server.take(client.number)
    else if (what === 2 && server.outbox[client.number].length) deliver(client)
  }
  recording.delivered(clients.map(({ list }) => list))
  recording.note(`seed ${seed}`)
  return recording
}

const isRun = import.meta.url === pathToFileURL(process.argv[1]).href
for (let seed = 1; isRun && seed <= Number(sessions); seed++) {
  const recording = session(seed)
  await recording.save(`${folder}/${bug}-${seed}.trace`)
  const { verdict, k, weak, warnings } = await recording.judge(null, { weak: true })
  const isPassing = weak && !warnings.length
  console.log(seed, isPassing ? "passes" : "fails", [verdict, ...(k ? [k] : []), ...warnings].join(" "))
}
