# Makes a shell script of a document's blocks of shell commands: what block N prints goes to the file N.out, and the block of text right
# behind it to the file N.want. Blocks that call rt or make are left out.
function flush_block() {
    if (block != "" && block !~ /(^|[\n( ])(rt|make) /)
        print "{\n" block "} > " count ".out 2>&1"
    block = ""
}
$0 == "```sh" { flush_block(); count++; in_sh = 1; block = ""; next }
$0 == "```text" && block != "" { in_text = 1; text = ""; next }
/^```/ && in_sh { in_sh = 0; next }
/^```/ && in_text {
    in_text = 0
    if (block !~ /(^|[\n( ])(rt|make) /)
        printf "%s", text > (room "/" count ".want")
    flush_block()
    next
}
in_sh { block = block $0 "\n"; next }
in_text { text = text $0 "\n"; next }
/./ { flush_block() }
END { flush_block() }
