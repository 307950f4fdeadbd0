[app: :b, version: "1.0.0"]
