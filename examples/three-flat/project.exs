[app: :demo, version: "0.1.0", deps: [{:a, path: "a"}, {:b, path: "b"}, {:c, path: "c"}]]
