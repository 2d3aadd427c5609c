# The assembler behind tools/lesson/assemble: a lesson on standard input becomes two files of rows of octal escapes,
# one for the log and one for RAM, named by LOG_ROWS and RAM_ROWS. A refusal goes to standard output, status 2.
# Numbers are read digit by digit, since awks differ on a leading 0, and written as escapes, since they differ on the
# bytes 0 and 128 and above.

BEGIN {
    LOG_MOST = 60000
    TICKS_MOST = 32000
    COUNT_MOST = 65535
    RAM_SIZE = 65536
    END_SIZE = 2
    NOWHERE = -1

    address = NOWHERE
    directory = NOWHERE
    name_global_registers()
    name_voice_registers()
    name_flags()
    for (byte = 0; byte < 256; byte++)
        escape[byte] = sprintf("\\0%03o", byte)
}

function name_global_registers(    count, i, word) {
    count = split("MVOLL 12 MVOLR 28 EVOLL 44 EVOLR 60 KON 76 KOF 92 KOFF 92 FLG 108 ENDX 124 " \
        "EFB 13 PMON 45 NON 61 EON 77 DIR 93 ESA 109 EDL 125", word, " ")
    for (i = 1; i < count; i += 2)
        register[word[i]] = word[i + 1] + 0
    for (i = 0; i < 8; i++)
        register["FIR" i] = i * 16 + 15
}

function name_voice_registers(    count, i, voice, word) {
    count = split("VOLL VOLR PITCHL PITCHH SRCN ADSR1 ADSR2 GAIN ENVX OUTX", word, " ")
    for (voice = 0; voice < 8; voice++)
        for (i = 1; i <= count; i++)
            register["V" voice "." word[i]] = voice * 16 + i - 1
}

function name_flags() {
    flag["-"] = 0
    flag["end"] = 1
    flag["loop"] = 2
    flag["loop+end"] = 3
}

# ---- refusals

# After `exit` awk still runs END, which has then nothing to do.
function refuse(what) {
    print ENVIRON["LESSON"] ":" NR ": " what
    refused = 1
    exit 2
}

function operands(count) {
    if (NF - 1 != count)
        refuse($1 " takes operands: " count ", not " (NF - 1))
}

# ---- operands

function digits(text, base,    i, value) {
    value = 0
    for (i = 1; i <= length(text); i++)
        value = value * base + index("0123456789ABCDEF", toupper(substr(text, i, 1))) - 1
    return value
}

function number(word, lowest, highest, what,    value) {
    if (word ~ /^[0-9]+$/)
        value = digits(word, 10)
    else if (word ~ /^-[0-9]+$/)
        value = -digits(substr(word, 2), 10)
    else if (word ~ /^[$][0-9A-Fa-f]+$/)
        value = digits(substr(word, 2), 16)
    else if (word ~ /^%[01]+$/)
        value = digits(substr(word, 2), 2)
    else
        refuse(what " " word " is not a number")
    if (value < lowest || highest < value)
        refuse(what " " word " is not from " lowest " to " highest)
    return value
}

# A volume, a filter tap or the feedback may be written with its sign.
function byte_of(word, what) {
    return (number(word, -128, 255, what) + 256) % 256
}

function register_of(word) {
    if (word in register)
        return register[word]
    if (word ~ /^[A-Za-z]/)
        refuse("unknown register " word)
    return number(word, 0, 127, "register")
}

# ---- the log

function record_fits(size) {
    if (log_size + size + END_SIZE > LOG_MOST)
        refuse("the log is over " LOG_MOST " bytes")
}

function log_mark(letters,    i) {
    for (i = 1; i <= 2; i++)
        log_byte(64 + index("ABCDEFGHIJKLMNOPQRSTUVWXYZ", substr(letters, i, 1)))
}

function log_byte(value) {
    log_bytes[log_size++] = value
}

function log_write(where, value) {
    record_fits(4)
    log_mark("RW")
    log_byte(where)
    log_byte(value)
}

function log_wait(count) {
    ticks += count
    if (ticks > TICKS_MOST)
        refuse("the lesson has " ticks " ticks up to here, over " TICKS_MOST)
    record_fits(4)
    log_mark("TK")
    log_byte(count % 256)
    log_byte(int(count / 256))
}

function log_read(where) {
    record_fits(3)
    log_mark("QA")
    log_byte(where)
}

# ---- RAM

function place(where, value) {
    if (where >= RAM_SIZE)
        refuse("RAM address beyond $FFFF")
    if (where in placed)
        refuse(sprintf("RAM $%04X is already placed by line %d", where, placed[where]))
    placed[where] = NR
    ram_bytes[where] = value
}

function place_next(value) {
    if (address == NOWHERE)
        refuse($1 " without an at before it")
    place(address++, value)
}

function place_word(where, value) {
    place(where, value % 256)
    place(where + 1, int(value / 256))
}

function place_sample(entry, start, again) {
    place_word(entry, start)
    place_word(entry + 2, again)
}

# The first nibble of a pair stands high.
function place_block(    i, high, low) {
    if (!($4 in flag))
        refuse("flags " $4 " are not -, end, loop or loop+end")
    place_next(number($2, 0, 15, "shift") * 16 + number($3, 0, 3, "filter") * 4 + flag[$4])
    for (i = 5; i < 21; i += 2) {
        high = (number($i, -8, 7, "nibble") + 16) % 16
        low = (number($(i + 1), -8, 7, "nibble") + 16) % 16
        place_next(high * 16 + low)
    }
}

# ---- statements

{
    sub(/#.*/, "")
    sub(/\r$/, "")
}

NF == 0 { next }

$1 == "write" { operands(2); log_write(register_of($2), byte_of($3, "value")); next }

$1 == "wait" { operands(1); log_wait(number($2, 1, COUNT_MOST, "tick count")); next }

$1 == "read" { operands(1); log_read(register_of($2)); next }

$1 == "at" { operands(1); address = number($2, 0, RAM_SIZE - 1, "RAM address"); next }

$1 == "bytes" {
    if (NF == 1)
        refuse("bytes takes operands: 1 or more, not 0")
    for (i = 2; i <= NF; i++)
        place_next(byte_of($i, "byte"))
    next
}

$1 == "directory" { operands(1); directory = number($2, 0, 255, "page") * 256; next }

$1 == "sample" {
    operands(3)
    if (directory == NOWHERE)
        refuse("sample without a directory before it")
    entry = directory + number($2, 0, 255, "sample number") * 4
    place_sample(entry, number($3, 0, RAM_SIZE - 1, "start address"), number($4, 0, RAM_SIZE - 1, "loop address"))
    next
}

$1 == "block" { operands(19); place_block(); next }

{ refuse("unknown word " $1) }

# ---- what comes out

function rows(file, bytes, count,    i, row) {
    row = ""
    for (i = 0; i < count; i++) {
        row = row escape[bytes[i] + 0]
        if (i % 64 == 63) {
            print row >file
            row = ""
        }
    }
    if (row != "")
        print row >file
    close(file)
}

END {
    if (refused)
        exit 2
    log_mark("ND")
    rows(ENVIRON["LOG_ROWS"], log_bytes, log_size)
    rows(ENVIRON["RAM_ROWS"], ram_bytes, RAM_SIZE)
}
