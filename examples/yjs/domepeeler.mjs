// The recorder, for what stands in this folder; in a project a copy of it stands here.
export * from "../../recorders/domepeeler.mjs"
