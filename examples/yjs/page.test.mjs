// A plain test of an editor on Yjs, recorded: three writers of one page, and a network that hands their updates on.
//
// It needs Node.js, Yjs (here Debian's node-yjs), and the program's path in DOMEPEELER:
//
//     export DOMEPEELER=../../crates/finder_cli/out/finder_cli NODE_PATH=/usr/share/nodejs
//     node --test page.test.mjs
//
// With PLANTED=1 the network hands on the newest update first. Yjs holds back what it can't apply yet, and the recording says that an
// update has arrived when Yjs has taken it in, so both recordings are accepted. It is saved in page.trace, or in the file of RECORDING.
import assert from "node:assert"
import { createRequire } from "node:module"
import { test } from "node:test"
import { RecordedDocs } from "./recorded_yjs.mjs"

// Debian's modules are found by require alone; with a package manager this is: import * as Y from "yjs"
const Y = createRequire(import.meta.url)("yjs")
const FILE = process.env.RECORDING || "page.trace"

test("three writers of one page", async () => {
  const docs = [1, 2, 3].map((id) => Object.assign(new Y.Doc(), { clientID: id })) // the same order in each run
  const pages = docs.map((doc) => doc.getText("page"))
  const recorded = new RecordedDocs(Y, docs, (doc) => doc.getText("page")) // new

  const waiting = docs.map(() => []) // the updates that are on their way to each writer
  docs.forEach((doc, from) => doc.on("update", (update, origin, _, transaction) => {
    if (transaction.local) waiting.forEach((updates, to) => { if (to !== from) updates.push(update) })
  }))
  const arrive = (to) => {
    while (waiting[to].length) {
      const update = process.env.PLANTED ? waiting[to].pop() : waiting[to].shift()
      recorded.applyUpdate(docs[to], update) // was: Y.applyUpdate(docs[to], update)
      recorded.read(docs[to]) // new: the writer sees the page
    }
  }

  pages[0].insert(0, "hi")
  arrive(1)
  pages[1].insert(2, "s") // which makes it: his
  pages[0].insert(0, "t") // at the same time
  arrive(2)
  arrive(0)
  pages[2].delete(0, 1)
  docs.forEach((_, to) => arrive(to))

  pages.forEach((page) => assert.equal(page.toString(), pages[0].toString()))
  await recorded.recording.save(FILE) // new, and the rest
  const report = await recorded.recording.judge()
  assert.equal(report.verdict, "accepted", `domepeeler-explain ${FILE} says what went wrong`)
  assert.deepEqual(report.warnings, []) // an update that the network loses is told of here alone
})
