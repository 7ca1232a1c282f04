-- Asks macaroond whether a request's token is granted. If so txn.macaroon is `granted`, and
-- txn.macaroon_identifier whose the token is; else the refusal is answered.
core.register_action("macaroon", { "http-req" }, function(txn)
    local tokens = {}
    for at, token in pairs(txn.http:req_get_headers()["authorization"] or {}) do
        tokens[at + 1] = token
    end
    -- Nothing of the client's own but its tokens, and the facts that HAProxy knows. A silent
    -- macaroond is asked four times, for 500 milliseconds each.
    local answer = core.httpclient():get {
        url = "http://macaroond/verify/bank", dst = "unix@macaroond.http", timeout = 500,
        headers = {
            ["host"] = { "macaroond" },
            ["authorization"] = tokens,
            ["x-forwarded-method"] = { txn.f:method() },
            ["x-forwarded-uri"] = { txn.f:pathq() },
            ["x-forwarded-host"] = { txn.sc:host_only(txn.sf:req_fhdr("host")) },
            ["x-forwarded-proto"] = { txn.f:ssl_fc() == 1 and "https" or "http" },
            ["x-real-ip"] = { txn.f:src() },
            -- What macaroond's log has as `id=`, by --log requests.
            ["x-request-id"] = { txn.f:unique_id() },
            ["macaroon-fact"] = { "service = demo" },
        },
    }
    if answer.status == 200 then
        txn:set_var("txn.macaroon_identifier", answer.headers["macaroon-identifier"][0])
        txn:set_var("txn.macaroon", "granted")
    elseif answer.status == 401 or answer.status == 403 then
        -- Why it was refused, for the log; the client is told it by the field below.
        txn:set_var("txn.macaroon_reason", (answer.headers["macaroon-reason"] or {})[0] or "-")
        local reply = txn:reply { status = answer.status, body = answer.body }
        for _, name in ipairs { "www-authenticate", "macaroon-reason", "content-type" } do
            for _, value in pairs(answer.headers[name] or {}) do
                reply:add_header(name, value)
            end
        end
        txn:done(reply)
    end
end)
