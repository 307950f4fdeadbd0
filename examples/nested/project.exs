[
  app: :shop,
  version: "0.1.0",
  deps: [
    {:web, path: "web"},
    {:core, "~> 1.2", path: "core"}
  ]
]
