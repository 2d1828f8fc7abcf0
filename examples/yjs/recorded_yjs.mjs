// Records the replicas of a Y.Text or Y.Array while a test uses them as it did before.
//
// Copy this file and recorders/domepeeler.mjs into one folder of your project. It was tried with Yjs 13.5.43; page.test.mjs is a test with it.
//
//     const recorded = new RecordedDocs(Y, docs, (doc) => doc.getText("page")) // right after the docs are made
//     recorded.applyUpdate(docs[1], update)        // in the place of Y.applyUpdate
//     recorded.encodeStateAsUpdate(docs[0])        // in the place of Y.encodeStateAsUpdate
//     recorded.read(docs[1])                       // where the text is shown
//     await recorded.recording.save("page.trace")  // or judge(), as docs/recording.md says
//
// What the user changes at a doc is recorded by itself: each element that is gone as a delete, and then each new one as an
// insert, from the left. An insert's position is where the element stands afterwards, so no fault of positions is found.
// It is not for docs whose observers make changes of their own: such a change is recorded before it is sent. An update that Yjs holds back,
// since what it builds on has not arrived, counts as received when Yjs has put it into the doc.
// An element's name is its letter (`item` where it is none), its doc's number, `-` and its clock: h0-3.
import { Recording } from "./domepeeler.mjs"

export class RecordedDocs {
  #Y
  #docs
  #shared
  #replicas // the replica of each client's id
  #shown // what each doc held after its last transaction
  // Of an update: who sent it; the number of the last operation in it, 0 where it has none; and which clock of each client a doc has that
  // has taken it in.
  #sent = new WeakMap()
  #sentBytes = new Map() // the same by the update's bytes, for updates that are copied; null where two have the same ones
  #isApplying = false
  #heldBack // of each doc: what was sent of the updates that it got, and has not taken in yet

  constructor(Y, docs, shared) {
    this.recording = new Recording(docs.length)
    this.#Y = Y
    this.#docs = docs
    this.#shared = shared
    this.#replicas = new Map(docs.map((doc, replica) => [doc.clientID, replica]))
    this.#shown = docs.map(() => [])
    this.#heldBack = docs.map(() => [])
    docs.forEach((doc, replica) => {
      let n = 0
      doc.on("afterTransaction", (transaction) => {
        const isUsers = transaction.local && !this.#isApplying // Yjs tidies up behind an update, which counts as local
        if (isUsers) this.#receive(replica)
        n = isUsers ? this.#changed(replica) : 0
        this.#shown[replica] = this.#names(replica)
      })
      doc.on("update", (update, origin, _, transaction) => {
        if (transaction.local) this.#send(update, { author: replica, n, clocks: clocksOf(transaction, doc.clientID) })
      })
      if (this.#names(replica).length) throw new Error("a doc is not empty: make RecordedDocs right after the docs")
    })
  }

  /** Applies an update of one of the docs to another one, and records that its operations have arrived. */
  applyUpdate(doc, update, origin) {
    const replica = this.#replica(doc), sent = this.#sender(update)
    this.#isApplying = true
    try {
      this.#Y.applyUpdate(doc, update, origin)
    } finally {
      this.#isApplying = false
    }
    if (sent.n && sent.author !== replica) this.#heldBack[replica].push(sent)
    this.#receive(replica)
  }

  /** The doc's state, or what is new in it. The read that is recorded stands for all that the doc has. */
  encodeStateAsUpdate(doc, vector) {
    const replica = this.#replica(doc), n = this.read(doc)
    const update = this.#Y.encodeStateAsUpdate(doc, vector)
    this.#send(update, { author: replica, n, clocks: this.#clocks(doc) })
    return update
  }

  /** The doc's text is shown. */
  read(doc) {
    const replica = this.#replica(doc)
    return this.recording.read(replica, this.#names(replica))
  }

  // Writes the receipts of the updates that the doc has taken in by now: of each author of these the last one's.
  #receive(replica) {
    const has = this.#clocks(this.#docs[replica]), last = new Map()
    this.#heldBack[replica] = this.#heldBack[replica].filter(({ author, n, clocks }) => {
      const isThere = [...clocks].every(([client, clock]) => (has.get(client) ?? 0) >= clock)
      if (isThere) last.set(author, Math.max(n, last.get(author) ?? 0))
      return !isThere
    })
    for (const [author, n] of last) this.recording.received(replica, author, n)
  }

  // How many elements of each client the doc has taken in.
  #clocks(doc) {
    return this.#Y.decodeStateVector(this.#Y.encodeStateVector(doc))
  }

  #replica(doc) {
    const replica = this.#docs.indexOf(doc)
    if (replica < 0) throw new Error("this doc is none of those that are recorded")
    return replica
  }

  // The names of what the doc holds now, by the ids that Yjs gives its elements.
  #names(replica) {
    const list = this.#shared(this.#docs[replica])
    const letters = typeof list.toArray === "function" ? list.toArray() : list.toString()
    return Array.from({ length: list.length }, (_, place) => {
      const { client, clock } = this.#Y.createRelativePositionFromTypeIndex(list, place).item
      const author = this.#replicas.get(client)
      if (author === undefined) throw new Error(`client ${client} is none of the recorded docs: was a clientID changed?`)
      const letter = letters[place]
      return `${/^[A-Za-z]$/.test(letter) ? letter : "item"}${author}-${clock}`
    })
  }

  // What the user's change of a doc was: deletes first, and then inserts, each with the list as it would stand by then.
  #changed(replica) {
    const had = this.#shown[replica], names = this.#names(replica)
    const left = new Set(names)
    let list = had, n = 0
    for (const name of had) {
      if (left.has(name)) continue
      list = list.filter((other) => other !== name)
      n = this.recording.delete(replica, name, list)
    }
    const there = new Set(list)
    for (const name of names) {
      if (there.has(name)) continue
      there.add(name)
      list = names.filter((other) => there.has(other))
      n = this.recording.insert(replica, name, list.indexOf(name), list)
    }
    return n
  }

  #send(update, sent) {
    const bytes = Buffer.from(update).toString("base64")
    this.#sent.set(update, sent)
    this.#sentBytes.set(bytes, this.#sentBytes.has(bytes) ? null : sent)
  }

  #sender(update) {
    const sent = this.#sent.get(update) ?? this.#sentBytes.get(Buffer.from(update).toString("base64"))
    if (sent === undefined) throw new Error("this update is of none of the recorded docs")
    if (sent === null) throw new Error("two docs sent the same bytes: hand on the very Uint8Array that the doc gave")
    return sent
  }
}

// Which clock of each client a doc has that has taken in what this transaction of a client inserted and deleted.
function clocksOf(transaction, clientID) {
  const clocks = new Map()
  const had = transaction.beforeState.get(clientID) ?? 0, has = transaction.afterState.get(clientID) ?? 0
  if (has > had) clocks.set(clientID, has)
  for (const [client, deleted] of transaction.deleteSet.clients) {
    clocks.set(client, Math.max(clocks.get(client) ?? 0, ...deleted.map(({ clock, len }) => clock + len)))
  }
  return clocks
}
