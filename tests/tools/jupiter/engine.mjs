// engine.mjs BUG: Jupiter, with the bug or `none` as jupiter.mjs has it, as an engine that record.py asks for sessions with --server. The
// server keeps no list, and is left out of the trace.
import { createInterface } from "node:readline"
import { Recording } from "../../../recorders/domepeeler.mjs"
import { Client, Server } from "./jupiter.mjs"

let recording, server, clients

function begin(size) {
  recording = new Recording(size)
  server = new Server(size)
  clients = Array.from({ length: size }, (_, number) => new Client(number, server, recording))
}

// The server takes all that the client has. One that sends a change at a time hears first that the last one has its place.
function send(client) {
  const inbox = server.inbox[client.number], outbox = server.outbox[client.number]
  while (inbox.length || client.sent < client.waiting.length) {
    if (inbox.length) server.take(client.number)
    else client.take(outbox.shift())
  }
}

function receive(client) {
  const outbox = server.outbox[client.number]
  while (outbox.length) client.take(outbox.shift())
}

function play([number, kind, name, side, place]) {
  const client = clients[number] // none where it is the server
  if (kind === "take") return client ? receive(client) : send(clients[name])
  if (!client) return
  const list = client.list
  if (kind === "ins" && side === "at") client.insert(name, Math.min(Number(place), list.length))
  else if (kind === "ins" && list.includes(place)) client.insert(name, list.indexOf(place) + (side === "after" ? 1 : 0))
  else if (kind === "del" && list.includes(name)) client.delete(list.indexOf(name))
  else recording.read(client.number, list)
}

for await (const line of createInterface({ input: process.stdin })) {
  const words = line.split(" ")
  if (words[0] === "plan") begin(Number(words[1]) - 1)
  else if (words[0] === "end") process.stdout.write(recording.text() + "end\n")
  else play(words)
}
