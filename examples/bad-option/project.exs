[app: :demo, version: "0.1.0", deps: [{:a, pth: "a"}]]
