# Writes Rust source of the make-up of real one, always the same: of its bytes about a fifth comments, a
# third names, a quarter white space.
function pick(n) { seed = (seed * 16807) % 2147483647; return seed % n }
function word() { return words[pick(count)] }
function name(   n, made) {
    made = word()
    for (n = pick(3); n > 0; n--) made = made "_" word()
    return made
}
function type_name(   n, made, w) {
    made = ""
    for (n = 1 + pick(3); n > 0; n--) { w = word(); made = made toupper(substr(w, 1, 1)) substr(w, 2) }
    return made
}
function type_of(   k) {
    k = pick(12)
    if (k == 0) return "&'a str"
    if (k == 1) return "Vec<" type_name() ">"
    if (k == 2) return "Option<" type_of() ">"
    if (k == 3) return "&mut " type_name()
    if (k == 4) return "Result<" type_name() ", " type_name() "Error>"
    if (k == 5) return "HashMap<String, " type_name() ">"
    if (k < 8) return "usize"
    return type_name()
}
function words_of(n,   made) {
    made = word()
    for (n--; n > 0; n--) made = made (pick(9) ? " " : ", ") word()
    return made
}
function literal(   k) {
    k = pick(14)
    if (k < 4) return pick(200)
    if (k == 4) return "0x" sprintf("%04x", pick(65536))
    if (k == 5) return "'" substr(word(), 1, 1) "'"
    if (k == 6) return "'\\n'"
    if (k == 7) return pick(1000) "_" 100 + pick(900) "u64"
    if (k == 8) return pick(100) "." pick(100)
    if (k == 9) return "b\"" word() "\""
    if (k == 10) return "r#\"" words_of(3) "\"#"
    if (k == 11) return "\"" words_of(2 + pick(4)) ": {}\\n\""
    return "\"" words_of(1 + pick(6)) "\""
}
function value(deep,   k) {
    k = pick(deep > 3 ? 6 : 16)
    if (k == 0) return literal()
    if (k < 4) return name()
    if (k < 6) return "self." name()
    if (k < 8) return name() "(" value(deep + 1) ", " value(deep + 1) ")"
    if (k < 10) return value(deep + 1) "." name() "()"
    if (k == 10) return "&" name() "[" value(deep + 1) ".." value(deep + 1) "]"
    if (k == 11) return type_name() "::" name() "(" value(deep + 1) ")?"
    if (k == 12) return value(deep + 1) " " substr("+-*/", 1 + pick(4), 1) " " value(deep + 1)
    if (k == 13) return type_name() "::new(" value(deep + 1) ").unwrap_or_default()"
    if (k == 14) return name() ".iter().map(|" substr(word(), 1, 1) "| " value(deep + 1) ").collect::<Vec<_>>()"
    return "format!(" literal() ", " name() ")"
}
function indent(deep,   made) {
    made = ""
    for (; deep > 0; deep--) made = made "    "
    return made
}
function statement(deep,   k, n, made) {
    k = pick(deep > 5 ? 9 : 14)
    made = indent(deep)
    if (k < 4) return made "let " (pick(4) ? "" : "mut ") name() " = " value(0) ";\n"
    if (k < 6) return made value(0) ";\n"
    if (k == 6) return made "// " words_of(5 + pick(8)) ".\n" made name() " = " value(0) ";\n"
    if (k == 7) return made "return Err(" type_name() "::" type_name() " { " name() ": " value(1) " });\n"
    if (k == 8) return made "assert_eq!(" value(0) ", " literal() ");\n"
    if (k < 11) return made "if " value(1) (pick(2) ? " == " : " != ") value(1) " {\n" block(deep + 1) made "}\n"
    if (k == 11) return made "for " name() " in " value(0) " {\n" block(deep + 1) made "}\n"
    made = made "match " value(1) " {\n"
    for (n = 2 + pick(4); n > 0; n--) made = made indent(deep + 1) type_name() "::" type_name() "(" name() ") => " value(1) ",\n"
    return made indent(deep + 1) "_ => {}\n" indent(deep) "}\n"
}
function block(deep,   n, made) {
    made = ""
    for (n = 1 + pick(5); n > 0; n--) { made = made statement(deep); if (!pick(6) && n > 1) made = made "\n" }
    return made
}
function documentation(deep,   n, made) {
    made = ""
    for (n = 1 + pick(6); n > 0; n--) made = made indent(deep) "/// " words_of(6 + pick(8)) (pick(3) ? "" : " [`" type_name() "`]") ".\n"
    return made
}
function item(   n, made) {
    made = documentation(0)
    if (!pick(3)) {
        made = made "#[derive(Clone, Debug, PartialEq)]\npub struct " type_name() "<'a> {\n"
        for (n = 1 + pick(6); n > 0; n--) made = made (pick(2) ? "" : documentation(1)) indent(1) "pub " name() ": " type_of() ",\n"
        return made "}\n\n"
    }
    if (!pick(4)) return made "/* " words_of(10 + pick(40)) "\n   " words_of(12) " */\nuse crate::" name() "::{" type_name() ", " type_name() "};\n\n"
    made = made "impl<'a, T: " type_name() "> " type_name() "<'a, T> {\n"
    for (n = 1 + pick(5); n > 0; n--)
        made = made documentation(1) "    pub fn " name() "(&self, " name() ": " type_of() ", " name() ": " type_of() ") -> " type_of() " {\n" block(2) "    }\n\n"
    return made "}\n\n"
}
BEGIN {
    seed = 7
    count = split("a of the to in for is and with from text token tokens index len value key node parent child path name kind span start end offset buffer stream state table entry hash map set list item items iter next peek parse read write open close flush source target result error message context config option flags level depth width height left right first last head tail front back cursor reader writer parser lexer symbol ident literal number string byte bytes character line column file module crate function method argument parameter return call expression statement pattern type trait field variant binding scope block loop break continue match guard body signature attribute macro rule matcher fragment transcriber expansion location range position length capacity allocated initialized temporary previous current remaining expected actual unwrap_or_else as_str to_string is_empty push_str insert remove contains get_mut into_iter as_ref clone default", words, " ")
    words[0] = "value"
    while (done < bytes) { made = item(); done += length(made); printf "%s", made }
}
