// ProseMirror, and how it is recorded. Run it by record.py; it reads plans and writes traces.
//
// The library's: documents, and steps, which are applied, inverted and mapped over others (prosemirror-model, prosemirror-transform).
// Ours, since Debian has no prosemirror-collab: `Authority` and `Client`, which do what that plugin does and its guide says. A client
// keeps the steps that are not confirmed; where others come it undoes these, applies what came, and maps its own over that, with
// mirrors in the mapping, as the plugin's `rebaseSteps` does. No user interface, and no network: each message arrives.
import { createRequire } from "node:module"
import { createInterface } from "node:readline"
import { Recording } from "../domepeeler.mjs"

// Debian's modules are found by require alone; with a package manager this is: import { Schema } from "prosemirror-model"
const require = createRequire(import.meta.url)
const { Schema } = require("prosemirror-model")
const { Transform } = require("prosemirror-transform")

const schema = new Schema({ nodes: { doc: { content: "paragraph" }, paragraph: { content: "text*" }, text: {} } })
const START = 1 // where the paragraph's text begins
const FIRST = 0x4e00 // the letter that stands for the first name: each typed letter is another one, so that it has a name of its own

// The server. It orders steps, and takes those alone that were made on all that it has: else the client has to receive first.
class Authority {
  steps = [] // each with the client that made it, and the number of its operation

  receive(version, steps) {
    if (version !== this.steps.length) return false
    this.steps.push(...steps)
    return true
  }
}

// One user's editor. A step that waits for the authority stands with its inverse in `unconfirmed`.
class Client {
  doc = schema.node("doc", null, [schema.node("paragraph")])
  version = 0 // how many of the authority's steps it has
  unconfirmed = []

  // The user's change; answers what is to be sent of it.
  change(edit) {
    const transform = new Transform(this.doc)
    edit(transform)
    const [step] = transform.steps
    const entry = { step, inverted: step.invert(this.doc) }
    this.doc = transform.doc
    this.unconfirmed.push(entry)
    return entry
  }

  // All the authority's steps from this client's version on: first its own, which are confirmed so, then those of others.
  receive(steps, isOwn) {
    const others = steps.filter((sent) => !isOwn(sent))
    this.version += steps.length
    this.unconfirmed.splice(0, steps.length - others.length)
    if (others.length) this.rebase(others)
  }

  rebase(others) {
    const transform = new Transform(this.doc), own = this.unconfirmed
    for (const { inverted } of [...own].reverse()) transform.step(inverted)
    for (const { step } of others) transform.step(step)
    this.unconfirmed = []
    own.forEach((entry, place) => {
      const from = own.length - place // behind the map of its own inverse
      const step = entry.step.map(transform.mapping.slice(from))
      if (!step || transform.maybeStep(step).failed) return // it is dropped, and never sent
      transform.mapping.setMirror(from - 1, transform.steps.length - 1)
      this.unconfirmed.push({ ...entry, step, inverted: step.invert(transform.docs.at(-1)) })
    })
    this.doc = transform.doc
  }
}

// Clients round an authority, recorded. What is done here stands at the places where an editor would do it. The authority shows its
// list to nobody, so it is no replica.
class Group {
  constructor(clients) {
    this.recording = new Recording(clients)
    this.typed = [] // the names, in the order of their letters
    this.authority = new Authority()
    this.clients = Array.from({ length: clients }, () => new Client())
  }

  names(replica) {
    return [...this.clients[replica].doc.textContent].map((letter) => this.typed[letter.codePointAt(0) - FIRST])
  }

  insert(replica, name, position) {
    const letter = String.fromCodePoint(FIRST + this.typed.push(name) - 1)
    const sent = this.clients[replica].change((transform) => transform.insert(START + position, schema.text(letter)))
    this.keep(sent, replica, this.recording.insert(replica, name, position, this.names(replica))) // after the local change
  }

  delete(replica, name) {
    const place = START + this.names(replica).indexOf(name) // looked up before the change
    const sent = this.clients[replica].change((transform) => transform.delete(place, place + 1))
    this.keep(sent, replica, this.recording.delete(replica, name, this.names(replica)))
  }

  // The operation's number goes with its step.
  keep(sent, author, n) {
    Object.assign(sent, { author, n })
  }

  read(replica) {
    this.recording.read(replica, this.names(replica))
  }

  // The client sends what is not confirmed; where the authority has more than it, it receives that first, and sends again.
  send(replica) {
    const client = this.clients[replica]
    if (this.authority.receive(client.version, client.unconfirmed)) return
    this.receive(replica)
    this.authority.receive(client.version, client.unconfirmed)
  }

  receive(replica) {
    const client = this.clients[replica], last = new Map()
    const steps = this.authority.steps.slice(client.version)
    client.receive(steps, ({ author }) => author === replica)
    for (const { author, n } of steps) if (author !== replica) last.set(author, n)
    for (const [author, n] of last) this.recording.received(replica, author, n) // after the authority's steps were applied
    if (last.size) this.read(replica)
  }
}

// One line of a plan. What the list must have and has not turns an operation into a read, which shows it. The last replica of a plan
// is the authority.
function play(group, words) {
  const replica = Number(words[0]), authority = group.clients.length
  if (words[1] === "take") return replica === authority ? group.send(Number(words[2])) : group.receive(replica)
  if (replica === authority) return
  const names = group.names(replica)
  if (words[1] === "ins" && words[3] === "at") {
    group.insert(replica, words[2], Math.min(Number(words[4]), names.length))
  } else if (words[1] === "ins" && names.includes(words[4])) {
    group.insert(replica, words[2], names.indexOf(words[4]) + (words[3] === "after" ? 1 : 0))
  } else if (words[1] === "del" && names.includes(words[2])) {
    group.delete(replica, words[2])
  } else {
    group.read(replica)
  }
}

let group
for await (const line of createInterface({ input: process.stdin })) {
  const words = line.split(" ")
  if (words[0] === "plan") group = new Group(Number(words[1]) - 1)
  else if (words[0] === "end") process.stdout.write(group.recording.text() + "end\n")
  else play(group, words)
}
