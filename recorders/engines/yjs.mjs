// Yjs, and how it is recorded. Run it by record.py; it reads plans and writes traces.
import { createRequire } from "node:module"
import { createInterface } from "node:readline"
import { Recording } from "../domepeeler.mjs"

// Debian's modules are found by require alone; with a package manager this is: import * as Y from "yjs"
const Y = createRequire(import.meta.url)("yjs")

// So many replicas of one Y.Array of names, recorded. What is done here stands at the places where an editor would do it.
class Group {
  constructor(replicas, causal) {
    this.recording = new Recording(replicas)
    this.causal = causal
    this.docs = Array.from({ length: replicas }, () => new Y.Doc())
    this.updates = new Map() // of each operation, by its name; a read has none
    this.clocks = new Map() // by operation: which clock of each client a doc has that has taken it in
    this.heldBack = this.docs.map(() => []) // of each replica: operations that came, and that its doc has not taken in yet
    this.docs.forEach((doc, replica) => { doc.clientID = replica + 1 }) // the same order in each run
  }

  list(replica) {
    return this.docs[replica].getArray("list")
  }

  names(replica) {
    return this.list(replica).toArray()
  }

  // One change by the user: Yjs answers an update, which goes out under the operation's name.
  change(replica, edit, record) {
    let update, clocks
    const keep = (bytes, origin, doc, transaction) => {
      update = bytes
      clocks = clocksOf(transaction, doc.clientID)
    }
    this.docs[replica].on("update", keep)
    edit(this.list(replica))
    this.docs[replica].off("update", keep)
    const n = record(this.names(replica)) // after the local change
    this.updates.set(`${replica}.${n}`, update)
    this.clocks.set(`${replica}.${n}`, clocks)
  }

  insert(replica, name, position) {
    this.change(replica, (list) => list.insert(position, [name]),
      (names) => this.recording.insert(replica, name, position, names))
  }

  delete(replica, name) {
    const place = this.names(replica).indexOf(name) // looked up before the change
    this.change(replica, (list) => list.delete(place, 1), (names) => this.recording.delete(replica, name, names))
  }

  read(replica) {
    const n = this.recording.read(replica, this.names(replica))
    this.clocks.set(`${replica}.${n}`, clocksIn(this.docs[replica])) // all that the reader had
  }

  // Operations of others: one by its update, several by a state sync, which brings all that the other one has.
  take(replica, other, operations) {
    const sync = this.causal && operations.length > 1
    if (sync) {
      const vector = Y.encodeStateVector(this.docs[replica])
      Y.applyUpdate(this.docs[replica], Y.encodeStateAsUpdate(this.docs[other], vector))
    }
    for (const operation of operations) {
      const update = this.updates.get(operation)
      if (update && !sync) Y.applyUpdate(this.docs[replica], update)
      this.heldBack[replica].push(operation)
    }
    this.receive(replica)
  }

  // The receipts of what the doc has taken in by now, one for the last operation of each author: Yjs holds back an update until what it
  // builds on is there.
  receive(replica) {
    const has = clocksIn(this.docs[replica]), last = new Map()
    this.heldBack[replica] = this.heldBack[replica].filter((operation) => {
      if ([...this.clocks.get(operation)].some(([client, clock]) => (has.get(client) ?? 0) < clock)) return true
      const [author, n] = operation.split(".").map(Number)
      last.set(author, Math.max(n, last.get(author) ?? 0))
      return false
    })
    for (const [author, n] of last) this.recording.received(replica, author, n) // after the remote change was applied
  }
}

// How many elements of each client a doc has taken in.
const clocksIn = (doc) => Y.decodeStateVector(Y.encodeStateVector(doc))

// Which clock of each client a doc has that has taken in what this transaction of a client inserted and deleted.
function clocksOf(transaction, clientID) {
  const clocks = new Map()
  const had = transaction.beforeState.get(clientID) ?? 0, has = transaction.afterState.get(clientID) ?? 0
  if (has > had) clocks.set(clientID, has)
  for (const [client, deleted] of transaction.deleteSet.clients) {
    clocks.set(client, Math.max(clocks.get(client) ?? 0, ...deleted.map(({ clock, len }) => clock + len)))
  }
  return clocks
}

// One line of a plan. What the list must have and has not turns an operation into a read, which shows it.
function play(group, words) {
  const replica = Number(words[0])
  const names = group.names(replica)
  if (words[1] === "take") {
    group.take(replica, Number(words[2]), words.slice(4))
  } else if (words[1] === "ins" && words[3] === "at") {
    group.insert(replica, words[2], Math.min(Number(words[4]), names.length))
  } else if (words[1] === "ins" && names.includes(words[4])) {
    group.insert(replica, words[2], names.indexOf(words[4]) + (words[3] === "after" ? 1 : 0))
  } else if (words[1] === "del" && names.includes(words[2])) {
    group.delete(replica, words[2])
  } else {
    group.read(replica)
  }
}

let group
for await (const line of createInterface({ input: process.stdin })) {
  const words = line.split(" ")
  if (words[0] === "plan") group = new Group(Number(words[1]), words[2] === "causal")
  else if (words[0] === "end") process.stdout.write(group.recording.text() + "end\n")
  else play(group, words)
}
