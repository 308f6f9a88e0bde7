-- Holds a request while the route of its tenant ends in "/hold". After 10 s it goes to the registry, which may refuse it with 429.
local routes = Map.new("routes.map", Map._str)

core.register_action("hold", { "http-req" }, function(txn)
    local tenant = txn.sf:path():match("^/v2/([^/]+)/")
    for _ = 1, 500 do
        local route = tenant and routes:lookup(tenant)
        if not route or route:sub(-5) ~= "/hold" then
            return
        end
        core.msleep(20)
    end
end, 0)
