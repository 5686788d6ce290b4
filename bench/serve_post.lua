-- What wrk sends: a POST of {"a":1} with the key k1.
wrk.method = "POST"
wrk.body = '{"a":1}'
wrk.headers["Content-Type"] = "application/json"
wrk.headers["X-Whisk-Key"] = "k1"
