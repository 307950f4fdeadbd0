[
  app: :core,
  version: "1.2.3",
  deps: [{:log, "~> 0.3", path: "../log"}]
]
