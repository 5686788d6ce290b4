-- What wrk sends: a GET with the key k1.
wrk.headers["X-Whisk-Key"] = "k1"
