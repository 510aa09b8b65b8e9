# fields.awk: what awk is asked to do of the work on a bench sheet: mawk -f measure/fields.awk <SHEET
#
# It splits each line, looks each field up among its column's names, keeps each pair's last state after, and writes a line for each event:
# its number, the request, the state after of the pair's last event, and its own. It does not judge.

# makes the words of a text the members of a list
function name(list, text,   words, n) {
    for (n = split(text, words, " "); n > 0; n--)
        list[words[n]] = 1
}

BEGIN {
    FS = OFS = ","
    RS = ORS = "\r\n"
    name(requests, "SnpShared SnpClean SnpNotSharedDirty SnpUnique SnpCleanInvalid SnpMakeInvalid SnpCleanFwd SnpNotSharedDirtyFwd")
    name(requests, "SnpPreferUnique SnpPreferUniqueFwd")
    name(flags, "0 1")
    name(tags, "Invalid Clean Dirty ?")
    name(responses, "SnpResp_I SnpResp_SC SnpRespData_I SnpRespData_SC SnpRespData_SD SnpRespData_I_PD SnpRespData_SC_PD")
    name(responses, "SnpRespDataPtl_I_PD SnpResp_I_Fwded_SC SnpResp_SC_Fwded_SC SnpResp_SD_Fwded_SC SnpResp_I_Fwded_SD_PD")
    name(responses, "SnpResp_SC_Fwded_SD_PD SnpResp_I_Fwded_UC SnpResp_I_Fwded_UD_PD SnpRespData_I_Fwded_SC SnpRespData_SC_Fwded_SC")
    name(responses, "SnpRespData_SD_Fwded_SC SnpRespData_I_Fwded_SD_PD SnpRespData_SC_Fwded_SD_PD SnpRespData_I_PD_Fwded_SC")
    name(responses, "SnpRespData_SC_PD_Fwded_SC")
    name(tag_ops, "Invalid Transfer Update Match")
    name(errors, "OK EXOK DERR NDERR")
    name(forwards, "- CompData_SC CompData_UC CompData_UD_PD CompData_SD_PD")
    name(finals, "I UC UCE UD UDP SC SD ?")
    name(forward_errors, "- OK EXOK DERR NDERR")
}

NR == 1 {
    print "event", "request", "before", "after"
    next
}

NF != 12 || $1 !~ /^[0-9]+$/ || !($2 in requests) || !($3 in flags) || !($4 in flags) || !($5 in flags) || !($6 in tags) ||
    !($7 in responses) || !($8 in tag_ops) || !($9 in errors) || !($10 in forwards) || !($11 in finals) || !($12 in forward_errors) {
    print "refused", 8, NR
    exit 1
}

{
    print NR - 2, $2, last[$1], $11
    last[$1] = $11
}
