export * from "../domepeeler.mjs"
