-- Asks macaroond whether a request's token is granted; any failure is answered 503.
local unix = require "socket.unix"

local function ask(stream, fields)
    stream:settimeout(2)
    if not stream:connect("macaroond.http") or not stream:send(table.concat(fields, "\r\n")) then
        return 503, {}
    end
    local status = (stream:receive("*l") or ""):match("^HTTP/1%.1 (%d+) ")
    local found, line = {}, status and stream:receive("*l")
    while line and line ~= "" do
        local name, value = line:match("^([^:]+): ?(.*)$")
        found[name:lower()], line = value, stream:receive("*l")
    end
    -- A head that isn't whole is no verdict.
    return line and tonumber(status) or 503, found
end

-- Names of fields by which a service may believe another method, path or address than those that were
-- judged, or a fact that the client named; `_` stands for `-` too, as CGI reads it.
local UNTOLD = {
    "^x%-forwarded", "^x%-original", "^x%-rewrite%-url$", "^x%-http%-method", "^x%-method%-override$",
    "^x%-real%-ip$", "^x%-request%-id$", "^forwarded$", "^macaroon%-",
}

local function drop_untold(r)
    for name in pairs(r:headers_in_table()) do
        local plain = name:lower():gsub("_", "-")
        for _, pattern in ipairs(UNTOLD) do
            if plain:match(pattern) then
                r.headers_in[name] = nil
            end
        end
    end
end

function check(r)
    -- The request's id in the logs, for a client who asks why; the service gets no other one. macaroond takes
    -- letters, digits, `-`, `_` and `.`, and Apache's ids may have a `@`.
    local id = r.subprocess_env["UNIQUE_ID"]:gsub("@", "_")
    r.notes["macaroon-request"], r.err_headers_out["X-Request-Id"] = id, id
    local stream = unix.stream()
    -- Nothing of the client's own but its token, and the facts that Apache knows.
    local status, found = ask(stream, {
        "GET /verify/bank HTTP/1.1", "Host: macaroond", "Connection: close",
        "Authorization: " .. (r.headers_in["Authorization"] or ""),
        "X-Request-Id: " .. id, "X-Forwarded-Method: " .. r.method, "X-Forwarded-Uri: " .. r.unparsed_uri,
        "X-Forwarded-Host: " .. (r.hostname or ""),
        "X-Forwarded-Proto: " .. (r.is_https and "https" or "http"),
        "X-Real-IP: " .. r.useragent_ip, "Macaroon-Fact: service = demo", "", "",
    })
    stream:close()
    if status == 200 then
        drop_untold(r)
        -- The client may name this field in its Connection, and Apache would take it out then.
        r.headers_in["Macaroon-Identifier"] = found["macaroon-identifier"]
        r.headers_in["X-Request-Id"] = id
        r.headers_in["Connection"] = (r.headers_in["Connection"] or ""):lower():match("close")
        return apache2.OK
    end
    r.err_headers_out["WWW-Authenticate"] = found["www-authenticate"]
    -- Why it was refused, for the log and for the client; who wants the log alone drops the second line.
    r.notes["macaroon-reason"] = found["macaroon-reason"]
    r.err_headers_out["Macaroon-Reason"] = found["macaroon-reason"]
    return (status == 401 or status == 403) and status or 503
end
