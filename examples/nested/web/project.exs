[
  app: :web,
  version: "1.0.0",
  deps: [
    {:core, path: "../core"},
    {:log, path: "../log", only: [:dev, :prod]},
    {:mock, path: "../mock", only: :test}
  ]
]
