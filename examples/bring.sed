# Makes lines of ovn_nd of the calls that examples/bring.sh writes: sed -E -f examples/bring.sed
# Options of a call.
:options
s/^(trace )?--(no-leader-only|no-wait|wait=[a-z]+|db=[^ ]+|timeout=[0-9]+|ct=[^ ]+|detailed|summary) /\1/
t options
# What only reads or waits; and what each router has here.
/^(show|sync|list|find|get|wait-until|ls-list|lsp-list|lr-list|acl-list)( |$)/d
/^set Logical_Router [^ ]+ options:chassis=/d
# Columns.
s/(^|-- )set Logical_Switch_Port ([^ ]+) type=router options:router-port=([^ ]+)/\1lsp-set-type \2 router -- lsp-set-options \2 router-port=\3/g
s/(^|-- )set Logical_Switch_Port ([^ ]+) enabled=true/\1lsp-set-enabled \2 enabled/g
s/(^|-- )set Logical_Switch_Port ([^ ]+) enabled=false/\1lsp-set-enabled \2 disabled/g
# Address sets and static MAC bindings.
s/^create Address_Set name=([^ ]+) '?addresses=/as-add \1 /
s/^set Address_Set ([^ ]+) '?addresses=/as-set \1 /
s/^destroy Address_Set /as-del /
/^as-/s/[,"']+/ /g
s/(^|-- )static-mac-binding-add /\1smb-add /g
