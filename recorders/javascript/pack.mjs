// A package can't reach beyond its folder. While npm packs it, `take` puts the recorder itself in the place of the line that hands
// it on, and beside it the library for Node.js where that is there: beside the one that DOMEPEELER_LIBRARY names, or where tools/install has put it
// below the same prefix as this folder; `leave` puts that line back.
import { copyFileSync, existsSync, rmSync, writeFileSync } from "node:fs"
import { dirname, join } from "node:path"
import { fileURLToPath } from "node:url"

const here = (name) => fileURLToPath(new URL(name, import.meta.url))
const ADDON = "domepeeler.node", named = process.env.DOMEPEELER_LIBRARY
const library = named ? join(dirname(named), ADDON) : here(`../../../../lib/domepeeler/${ADDON}`)

if (process.argv[2] === "take") {
  copyFileSync(here("../domepeeler.mjs"), here("domepeeler.mjs"))
  if (existsSync(library)) copyFileSync(library, here(ADDON))
} else if (process.argv[2] === "leave") {
  writeFileSync(here("domepeeler.mjs"), 'export * from "../domepeeler.mjs"\n')
  rmSync(here(ADDON), { force: true })
}
