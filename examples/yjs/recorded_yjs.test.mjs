// What recorded_yjs.mjs records, beside traces that were written by hand. It needs Yjs, and no program.
import assert from "node:assert"
import { createRequire } from "node:module"
import { test } from "node:test"
import { RecordedDocs } from "./recorded_yjs.mjs"

const Y = createRequire(import.meta.url)("yjs")

function group(count, shared) {
  const docs = Array.from({ length: count }, (_, replica) => Object.assign(new Y.Doc(), { clientID: 70 + replica }))
  const updates = docs.map(() => [])
  const recorded = new RecordedDocs(Y, docs, shared)
  docs.forEach((doc, replica) => doc.on("update", (update) => updates[replica].push(update)))
  return { docs, updates, recorded, lists: docs.map(shared), lines: () => recorded.recording.text().split("\n").slice(2, -1) }
}

test("several changes in one transaction: deletes first, and then inserts from the left", () => {
  const { docs, updates, recorded, lists, lines } = group(2, (doc) => doc.getText("t"))
  lists[0].insert(0, "ab1")
  docs[0].transact(() => { lists[0].delete(0, 2); lists[0].insert(1, "Z"); lists[0].insert(0, "y") })
  lists[0].format(0, 2, { bold: true }) // no operation
  updates[0].forEach((update) => recorded.applyUpdate(docs[1], update))
  recorded.read(docs[1])
  assert.deepEqual(lines(), [
    "0 ins a0-0 0 : a0-0", "0 ins b0-1 1 : a0-0 b0-1", "0 ins item0-2 2 : a0-0 b0-1 item0-2",
    "0 del a0-0 : b0-1 item0-2", "0 del b0-1 : item0-2", "0 ins y0-4 0 : y0-4 item0-2", "0 ins Z0-3 2 : y0-4 item0-2 Z0-3",
    "1 recv 0 3", "1 recv 0 7", "1 read : y0-4 item0-2 Z0-3"])
})

test("an array, by a state sync, in which a read stands for all that the sender has", () => {
  const { docs, updates, recorded, lists, lines } = group(3, (doc) => doc.getArray("list"))
  lists[0].push([{ some: "object" }, "k"])
  recorded.applyUpdate(docs[1], updates[0][0])
  lists[1].delete(0, 1)
  recorded.applyUpdate(docs[2], recorded.encodeStateAsUpdate(docs[1], Y.encodeStateVector(docs[2])))
  recorded.read(docs[2])
  assert.deepEqual(lines(), ["0 ins item0-0 0 : item0-0", "0 ins k0-1 1 : item0-0 k0-1", "1 recv 0 2", "1 del item0-0 : k0-1",
    "1 read : k0-1", "2 recv 1 2", "2 read : k0-1"])
})

test("updates that are copied, and one's own", () => {
  const { docs, updates, recorded, lists, lines } = group(3, (doc) => doc.getText("t"))
  lists[0].insert(0, "a")
  recorded.applyUpdate(docs[1], Uint8Array.from(updates[0][0]))
  recorded.applyUpdate(docs[0], updates[0][0])
  recorded.applyUpdate(docs[2], updates[0][0])
  assert.deepEqual(lines(), ["0 ins a0-0 0 : a0-0", "1 recv 0 1", "2 recv 0 1"])
  lists[0].delete(0, 1)
  lists[1].delete(0, 1) // the same bytes
  recorded.applyUpdate(docs[2], updates[1].at(-1))
  assert.deepEqual(lines().slice(3), ["0 del a0-0 :", "1 del a0-0 :", "2 recv 1 1"])
  assert.throws(() => recorded.applyUpdate(docs[2], Uint8Array.from(updates[1].at(-1))), /two docs sent the same bytes/)
})

test("what Yjs holds back is received when it has taken it in", () => {
  const { docs, updates, recorded, lists, lines } = group(2, (doc) => doc.getText("t"))
  lists[0].insert(0, "a")
  lists[0].insert(1, "b")
  lists[0].delete(0, 1)
  const [first, second, third] = updates[0]
  recorded.applyUpdate(docs[1], third)
  recorded.read(docs[1])
  recorded.applyUpdate(docs[1], second)
  recorded.read(docs[1])
  lists[1].insert(0, "z")
  recorded.applyUpdate(docs[1], first)
  recorded.read(docs[1])
  assert.deepEqual(lines(), ["0 ins a0-0 0 : a0-0", "0 ins b0-1 1 : a0-0 b0-1", "0 del a0-0 : b0-1", "1 read :", "1 read :",
    "1 ins z1-0 0 : z1-0", "1 recv 0 3", "1 read : b0-1 z1-0"])
})

test("an update that is taken in by another way is received before the next change", () => {
  const { docs, updates, recorded, lists, lines } = group(2, (doc) => doc.getText("t"))
  lists[0].insert(0, "a")
  lists[0].insert(1, "b")
  recorded.applyUpdate(docs[1], updates[0][1])
  Y.applyUpdate(docs[1], updates[0][0])
  lists[1].insert(2, "c")
  assert.deepEqual(lines(), ["0 ins a0-0 0 : a0-0", "0 ins b0-1 1 : a0-0 b0-1", "1 recv 0 2", "1 ins c1-0 2 : a0-0 b0-1 c1-0"])
})

test("what can't be recorded is told", () => {
  const { docs, recorded, lists } = group(2, (doc) => doc.getText("t"))
  const other = new Y.Doc()
  other.getText("t").insert(0, "a")
  assert.throws(() => recorded.applyUpdate(docs[0], Y.encodeStateAsUpdate(other)), /this update is of none of the recorded docs/)
  assert.throws(() => recorded.read(other), /this doc is none of those that are recorded/)
  assert.throws(() => new RecordedDocs(Y, [other], (doc) => doc.getText("t")), /was a clientID changed|a doc is not empty/)
  docs[0].clientID = 5
  assert.throws(() => lists[0].insert(0, "b"), /client 5 is none of the recorded docs/)
})
