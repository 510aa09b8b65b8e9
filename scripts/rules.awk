# The codes of definition 2, and the rules of definition 5.8 to 5.11 and 5.13, as the scripts that write tables need them. A row is a line of
# printed_rows in scripts/printed-rows: table, star, state before, states after, RetToSrc, message, Resp, FwdState.
BEGIN {
    split("I UC UCE UD UDP SC SD", state_names, " ")
    for (n in state_names) state[state_names[n]] = n - 1
    resps["I"] = 0; resps["SC"] = 1; resps["SD"] = 3; resps["I_PD"] = 4; resps["SC_PD"] = 5
    forwards["none"] = 0; forwards["SC"] = 1; forwards["UC"] = 2; forwards["UD_PD"] = 6; forwards["SD_PD"] = 7
    channel["SnpResp"] = 0; channel["SnpRespData"] = 1; channel["SnpRespDataPtl"] = 1
    opcode["SnpResp", 0] = 1; opcode["SnpResp", 1] = 9; opcode["SnpRespData", 0] = 1; opcode["SnpRespData", 1] = 6
    opcode["SnpRespDataPtl", 0] = 5
    after["to_I"] = "0"; after["to_SC"] = "5"; after["SC_or_I"] = "0 5"; after["to_SD"] = "6"
}

# the TagOp values that a row permits, with Dirty tags or with other tags; none where the row is not for such tags
function ops_of(dirty, before, message, resp, forward) {
    if (dirty && (before != state["UD"] && before != state["SD"] || forward ~ /PD/)) return ""
    if (message == "SnpResp") return "0"
    if (dirty) return resp ~ /PD/ ? "2" : "1"
    return before == state["UDP"] ? "0" : "0 1"
}

# the error fields of forwarded data; without a forward the byte is 0
function forward_errors_of(forward) {
    return forward == "none" ? "0" : "0 2"
}

# the RespErr values of an answer of a printed table
function errors_of(message) {
    return message == "SnpResp" ? "0" : "0 2"
}
