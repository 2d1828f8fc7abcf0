// A property-based test by Node's own test runner: whatever is done at three replicas, the recording is accepted without
// warnings.
//
// Debian 12 has no fast-check, so the random steps are made and made fewer here, by `failing`. Needs Debian's node-yjs,
// and the program's path in DOMEPEELER:
//
//     export DOMEPEELER=../../crates/finder_cli/out/finder_cli NODE_PATH=/usr/share/nodejs
//     node --test with_node_test.mjs
//
// For an editor whose server orders all changes, ask in `failing` for { weak, warnings } of judge(null, { weak: true }), and for `!weak` in
// the place of the verdict.
//
// To stop a debugger in the call that answered wrong, run the steps that failed alone, with `new Recording(REPLICAS, null, { stop: true })`
// in `session`: it starts the program at each call.
//
// The second test fails, and is meant to: it shows what a failure looks like, and leaves the recording in failed.trace.
import assert from "node:assert"
import { createRequire } from "node:module"
import { test } from "node:test"
import { Recording } from "../domepeeler.mjs"

// Debian's modules are found by require alone; with a package manager this is: import * as Y from "yjs"
const Y = createRequire(import.meta.url)("yjs")

const REPLICAS = 3, SESSIONS = 200, MOST_STEPS = 30

// One replica of a Y.Array; its message is Yjs's update.
class Yjs {
  constructor(replica) {
    this.doc = new Y.Doc()
    this.doc.clientID = replica + 1 // the same order in each run
    this.list = this.doc.getArray("list")
  }

  names() {
    return this.list.toArray()
  }

  change(edit) {
    let message
    this.doc.once("update", (update) => { message = update })
    edit()
    return message
  }

  insert(name, position) {
    return this.change(() => this.list.insert(position, [name]))
  }

  delete(name) {
    return this.change(() => this.list.delete(this.names().indexOf(name), 1))
  }

  apply(message) {
    Y.applyUpdate(this.doc, message)
  }
}

// What many write first: an element's key is the fraction in the middle between its neighbours' keys, and where fractions
// are the same the author decides. There is no room between two elements of the same fraction.
class Fractions {
  constructor(replica) {
    this.replica = replica
    this.items = new Map() // by name: key, or null for a deleted one
  }

  sorted() {
    const kept = [...this.items].filter(([, key]) => key !== null)
    return kept.sort(([, a], [, b]) => a.at - b.at || a.author - b.author)
  }

  names() {
    return this.sorted().map(([name]) => name)
  }

  insert(name, position) {
    const keys = this.sorted().map(([, key]) => key.at)
    const low = keys[position - 1] ?? 0, high = keys[position] ?? 1
    return this.apply({ name, key: { at: (low + high) / 2, author: this.replica } })
  }

  delete(name) {
    return this.apply({ name, key: null })
  }

  apply(message) {
    if (this.items.get(message.name) !== null) this.items.set(message.name, message.key)
    return message
  }
}

// The recording of these steps. At the end all that was done is delivered to everyone.
function session(Engine, steps) {
  const recording = new Recording(REPLICAS)
  const lists = Array.from({ length: REPLICAS }, (_, replica) => new Engine(replica))
  const has = lists.map(() => []) // the operations of each replica, in the order in which they came
  const take = (replica, other) => {
    const taken = has[other].filter((one) => !has[replica].includes(one))
    for (const one of taken) {
      lists[replica].apply(one.message)
      has[replica].push(one)
    }
    return taken
  }
  steps.forEach(([replica, what, place], number) => {
    const engine = lists[replica], names = engine.names()
    if (what === 0) {
      const name = `e${number}`, position = place % (names.length + 1)
      const message = engine.insert(name, position)
      has[replica].push({ author: replica, n: recording.insert(replica, name, position, engine.names()), message })
    } else if (what === 1 && names.length) {
      const name = names[place % names.length]
      const message = engine.delete(name)
      has[replica].push({ author: replica, n: recording.delete(replica, name, engine.names()), message })
    } else if (what === 2 && place % REPLICAS !== replica) {
      for (const one of take(replica, place % REPLICAS)) recording.received(replica, one.author, one.n)
    }
  })
  const everyone = [...lists.keys()]
  for (const replica of [...everyone, ...everyone]) everyone.forEach((other) => take(replica, other))
  recording.delivered(lists.map((list) => list.names())) // writes the receipts of these, and reads
  return recording
}

// Numbers below the limit, the same in each run (a linear congruential generator).
function numbers(seed) {
  return (limit) => {
    seed = (Math.imul(seed, 1664525) + 1013904223) >>> 0
    return Math.floor((seed / 2 ** 32) * limit)
  }
}

// The first random steps that fail, as few as leaving out one after the other makes them; or null.
async function failing(Engine) {
  const fails = async (steps) => {
    const { verdict, warnings } = await session(Engine, steps).judge()
    return verdict !== "accepted" || warnings.length > 0
  }
  const random = numbers(1)
  for (let tried = 0; tried < SESSIONS; tried++) {
    let steps = Array.from({ length: random(MOST_STEPS) }, () => [random(REPLICAS), random(3), random(8)])
    if (!(await fails(steps))) continue
    for (let at = 0; at < steps.length;) {
      const fewer = steps.filter((_, place) => place !== at)
      if (await fails(fewer)) [steps, at] = [fewer, 0]
      else at += 1
    }
    return steps
  }
  return null
}

async function check(Engine) {
  const steps = await failing(Engine)
  if (steps === null) return
  const recording = session(Engine, steps)
  await recording.save("failed.trace")
  assert.fail(`${JSON.stringify(await recording.judge())}\n${recording.text()}`)
}

test("Yjs", () => check(Yjs))
test("a list by fractions", () => check(Fractions))
