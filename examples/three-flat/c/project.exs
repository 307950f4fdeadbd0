[app: :c, version: "1.0.0"]
