# Prints what to write instead, where a script was refused for a form that other JavaScript has, and nothing where that isn't sure.
# usage: LC_ALL=C awk -v place=BYTES -v kind=KIND -f hint.awk < SCRIPT
# The text is cut into the words and marks of docs/SCRIPT.md: token[1] and on, with their places and lines.

BEGIN { tables() }

{ cut($0); from += length($0) + 1 }

END {
    for (f = 1; f <= tokens && at[f] < place; f++) nest(f)
    p = token[f]; b = token[f - 1]; c = token[f - 2]; a = token[f + 1]
    top = substr(stack, length(stack))
    told = ""
    if (kind == "Unexpected") {
        if (!told) told = of_marks()
        if (!told) told = of_types()
        if (!told) told = of_classes()
        if (!told) told = of_statements()
        if (!told) told = of_expressions()
        if (!told) told = of_ends()
    } else if (kind == "BadChar") told = of_characters()
    else if (kind == "Unbound") told = of_name(p, a == "." ? token[f + 2] : "")
    else if (kind == "NotAwaited") told = of_unawaited()
    else if (kind == "AwaitInSync" && a == "ctx" && token[f + 3] == "blockConcurrencyWhile") told = "take the await away: a constructor opens its block without one, as its last statement"
    else if (kind == "Form" || kind == "AwaitOfSync") told = of_call(f + (p == "await"))
    if (!told && kind == "AwaitOfSync" && a == "this" && token[f + 4] == "(") told = "take the await away, or write async in front of the method " token[f + 3]
    if (!told && kind in of_kinds) told = of_kinds[kind]
    if (told) print told
}

# ---- tokens

function cut(text,    i, n) {
    for (i = 1; i <= length(text); i += n) {
        if (in_comment) { n = through(text, i, "*/"); in_comment = !closed; continue }
        n = size_at(substr(text, i))
        if (n > 0) { tokens++; token[tokens] = substr(text, i, n); at[tokens] = from + i - 1; line[tokens] = NR }
        else n = -n
    }
}

# how many bytes go to the end of what closes a comment, or of the line
function through(text, i, end,    n) {
    n = index(substr(text, i), end)
    closed = n > 0
    return closed ? n + length(end) - 1 : length(text) - i + 1
}

# the length of the token that the text begins with, or that of what stands between tokens, below 0
function size_at(text,    n) {
    if (match(text, /^[ \t\r]+/)) return -RLENGTH
    if (text ~ /^\/\//) return -length(text)
    if (text ~ /^\/\*/) { n = through(text, 3, "*/"); in_comment = !closed; return -(n + 2) }
    if (match(text, /^[A-Za-z_$][A-Za-z0-9_$]*/)) return RLENGTH
    if (match(text, /^[0-9]+/)) return RLENGTH
    if (match(text, /^"(\\.|[^"\\])*"/) || match(text, /^'(\\.|[^'\\])*'/)) return RLENGTH
    if (match(text, /^(===|!==|=>|<=|>=|&&|[|][|]|[?][?]|[+][+]|--|[+]=|-=)/)) return RLENGTH
    return 1
}

# what is open behind token i: `{` a block or a class, `r` a record, `(` and `[`
function nest(i,    before) {
    if (token[i] ~ /^[])}]$/) { closed_by[i] = substr(stack, length(stack)); stack = substr(stack, 1, length(stack) - 1) }
    else if (token[i] == "(" || token[i] == "[") stack = stack token[i]
    else if (token[i] == "{") {
        before = token[i - 1]
        stack = stack (stack == "" || before ~ /^(\)|=>|\{|\}|;|else|try|catch)$/ ? "{" : "r")
    }
}

function is_word(text) { return text ~ /^[A-Za-z_$]/ }

function is_glued(i) { return at[i] == at[i - 1] + length(token[i - 1]) }

# whether an expression may end with token i
function ends_value(i) {
    if (token[i] == "}") return closed_by[i] == "r"
    if (token[i] ~ /^(\)|\]|\+\+|--)$/ || token[i] ~ /^["'0-9]/) return 1
    return is_word(token[i]) && !(token[i] ~ /^(return|else|let|const|await|new|throw|typeof|delete|void|in|of|try|case|do|async|var|function)$/)
}

# the token before the parenthesis that token i closes
function before_group(i,    open) {
    for (; i > 0; i--) {
        if (token[i] == ")") open++
        if (token[i] == "(" && --open == 0) return token[i - 1]
    }
    return ""
}

# the token behind the parenthesis that token i opens
function behind_group(i,    open) {
    for (; i <= tokens; i++) {
        if (token[i] == "(") open++
        if (token[i] == ")" && --open == 0) return token[i + 1]
    }
    return ""
}

# the token before the innermost parenthesis that is open before token i
function before_open(i,    open) {
    for (i--; i > 0; i--) {
        if (token[i] ~ /^[])}]$/) open++
        if (token[i] ~ /^[({[]$/ && open-- == 0) return token[i] == "(" ? token[i - 1] : ""
    }
    return ""
}

# the token behind the innermost parenthesis that is open before token i
function behind_open(i,    open) {
    for (; i <= tokens; i++) {
        if (token[i] ~ /^[({[]$/) open++
        if (token[i] ~ /^[])}]$/ && open-- == 0) return token[i] == ")" ? token[i + 1] : ""
    }
    return ""
}

# the word that the statement of token i begins with
function head_of(i) {
    while (i > 1 && !(token[i - 1] ~ /^[;{}]$/) && !(token[i - 1] == "(" && token[i - 2] == "for")) i--
    return token[i]
}

# ---- what the grammar refuses

function of_marks() {
    if (p == "=" && (a == "=" && is_glued(f + 1) || b == "=" && is_glued(f))) return "write ===, which compares what lists and records hold"
    if (p == "!" && a == "=") return "write !=="
    if (p == "." && b == "?" && is_glued(f)) return "there is no ?. here: write (a ?? {}).b, or test for undefined first"
    if (p == "." && a == ".") return of_spread()
    if (p == "=" && b ~ /^([*\/%]|\?\?|\|\||&&)$/ && is_glued(f)) return "write a = a " b " (..)"
    if (p == "*" && b == "*" && is_glued(f)) return "there is no power: multiply in a loop"
    if (p == b && p ~ /^[<>]$/ && is_glued(f)) return "there are no operators of bits: multiply, or divide what is even"
    if (p ~ /^(\|\||&&)$/ && ends_value(f - 1)) return "?? and " p " stand together in parentheses alone: (a ?? b) " p " c"
    if (p ~ /^(\+\+|--)$/) return "write x" p "; as a statement of its own: it gives no value"
    if (p ~ /^[0-9]/ && b == "." && c ~ /^[0-9]/) return "numbers are whole: count in cents or thousandths"
    if (p ~ /^_/ && b ~ /^[0-9]/ && is_glued(f)) return "write the digits alone, as 1000000"
    if (p == "+" && !ends_value(f - 1) && is_glued(f + 1)) return "write Number(text)"
    if (p == "/" && !ends_value(f - 1)) return "there are no regular expressions: texts have startsWith, endsWith, includes and split"
    if (b == "=>" && p != "{") return "the body of an arrow stands in braces: async () => { .. }"
    if (p == "=>" || a == "=>" || p == "async" && a == "(" || p == "," && (before_open(f) == "async" || behind_open(f) == "=>")) return of_arrow()
    return ""
}

function of_spread(    call) {
    call = top == "(" ? before_open(f) : ""
    if (stack == "{(") return "there are no rest parameters: take a list"
    if (call ~ /^(min|max)$/) return "write a loop: let best = list[0]; for (const x of list) { if (x " (call == "max" ? ">" : "<") " best) { best = x; } }"
    if (call == "push") return of_methods["concat"]
    if (token[f + 4] == "." && token[f + 5] ~ /^(values|keys|entries)$/) return of_pairs
    if (top == "r") return "there is no spread: a record is copied as it is assigned, let s = r; s.a = 1;"
    return "there is no spread: a list is copied as it is assigned, let b = a; b.push(x);"
}

# what TypeScript has beside JavaScript
function of_types() {
    if (stack == "" && (p ~ /^(interface|type|enum|declare|namespace|abstract)$/ || b ~ /^(interface|type|enum|declare|namespace|abstract)$/)) return no_types
    if (p == "<" && b == "DurableObject") return no_types
    if (stack == "{" && b ~ /^(private|public|protected|readonly|declare|override)$/ && is_word(p)) return no_types
    if (stack == "{(" && p ~ /^[:?]$/ && is_word(b)) return no_types
    if (stack == "{" && p == ":" && b == ")") return no_types
    if (p == ":" && is_word(b) && c ~ /^(let|const)$/) return no_types
    if (p == "as" && ends_value(f - 1)) return no_types
    if (p == "!" && a != "=" && ends_value(f - 1) && is_glued(f)) return no_types
    return ""
}

function of_arrow(    call) {
    if (p == "," && before_open(f) == "async") return no_functions
    call = p == "," ? before_open(opened_by(f)) : before_open(parameters_of(f) - (token[f - 2] == "async"))
    if (call == "async") return ""
    if (call == "then") return "write await in place of .then(..)"
    if (call ~ /^(catch|finally|sort|toSorted)$/) return of_methods[call]
    if (call ~ /^set(Timeout|Interval)$/) return of_names["setTimeout"]
    if (call == "transactionSync") return of_storage[call]
    if (call ~ /^(transaction|blockConcurrencyWhile)$/) return "write async (txn) => { .. }, with its parentheses and its braces"
    return no_functions
}

# the innermost parenthesis that is open before token i
function opened_by(i,    open) {
    for (i--; i > 0; i--) {
        if (token[i] ~ /^[])}]$/) open++
        if (token[i] ~ /^[({[]$/ && open-- == 0) return i
    }
    return 0
}

# where the parameters of the arrow at or behind token i begin
function parameters_of(i) {
    if (token[i] == ")" && token[i - 1] == "(") return i - 1
    if (token[i] != "=>" || token[i - 1] != ")") return i
    for (i -= 2; i > 0 && token[i] != "("; i--) {}
    return i
}

# at the top, in a class, among the parameters of its methods
function of_classes() {
    if (stack == "" && b == "export" && p == "default") return "write export class: each class is one, and the Worker stands elsewhere"
    if (stack == "" && p ~ /^(const|let|var|function|class|export)$/) return "a script has classes alone, each as export class X extends DurableObject { .. }: a constant becomes a method, limit() { return 10; }"
    if (p == "{" && b != "extends" && c == "class") return "write export class " b " extends DurableObject {"
    if (token[1] == "import" && stack ~ /^\{?$/ && !(token[2] == "{" && token[3] == "DurableObject" && token[4] == "}") || stack == "" && p == "import") return "the only import is import { DurableObject } from \"cloudflare:workers\";"
    if (stack == "{(" && before_open(f) == "constructor") return "a constructor is constructor(ctx, env) { super(ctx, env); .. }"
    if (stack == "{{" && b == "{" && before_group(f - 2) == "constructor") return "a constructor begins with super(ctx, env);"
    if (stack == "{(" && p == "=") return "there are no default parameters: begin the body with if (" b " === undefined) { " b " = ..; }"
    if (stack == "{(" && p ~ /^[{[]$/ && is_word(a) && token[f + 2] ~ /^[],}:=]$/) return "there is no destructuring: take the parameter whole, and read its parts"
    if (stack != "{") return ""
    if (b == "static") return "there is no static: write a method of the object, and call it by this.m(..)"
    if (b ~ /^(get|set)$/ && is_word(p)) return "there are no getters and setters: write a method"
    if (p == "*") return "there are no generators: return a list"
    if (p == ";" && b ~ /^[;{}]$/) return "take this ; away: nothing stands between methods"
    if (p == "=" && (token[f + 2] == "=>" || a == "(" && behind_group(f + 1) == "=>" || a == "async" && behind_group(f + 2) == "=>")) return "functions are no values: write a method, async " b "(..) { .. }"
    if (is_word(b) && (p ~ /^[=;]$/ || is_word(p) && line[f] > line[f - 1])) return "there are no class fields: set this." b " in the constructor, behind super(ctx, env);"
    return ""
}

function of_statements() {
    if (b == "var") return "write let or const"
    if (b ~ /^(let|const)$/ && p ~ /^[{[]$/) return "there is no destructuring: write const x = r.x; and const first = list[0];"
    if (p == "," && head_of(f - 1) ~ /^(let|const)$/ && (top == "{" || top == "(" && before_open(f) == "for")) return "a " head_of(f - 1) " declares one name: write two"
    if (p == "in" && token[f - 2] ~ /^(let|const)$/) return "write for (const " b " of Object.keys(r))"
    if (p == "{" && b == "do") return "there is no do: write while"
    if (p == "{" && b == ")" && before_group(f - 1) == "switch") return "there is no switch: write if (..) { .. } else if (..) { .. }"
    if (p == "finally" || b == "finally") return "there is no finally: write what is to be last behind the try and in its catch"
    if (p == ";" && b == "(" && c == "for") return "write while (true), or for (let i = 0; i < n; i++)"
    if (p == ";" && b ~ /^[;{}]$/ && top == "{") return "take this ; away: there is no empty statement"
    if (p == ":" && is_word(b) && c ~ /^[;{}]$/ && top == "{") return "there are no labels"
    if (b == "function" || p == "{" && b == ")" && before_group(f - 1) ~ /^(function|[A-Za-z_$]+)$/ && is_function(f - 1)) return "functions are no values: write a method, and call it by this.m(..)"
    return ""
}

function is_function(i,    open) {
    for (; i > 0; i--) {
        if (token[i] == ")") open++
        if (token[i] == "(" && --open == 0) return token[i - 1] == "function" || token[i - 2] == "function"
    }
    return 0
}

function of_expressions() {
    if (b == "new") return of_new()
    if (b == "typeof") return "there is no typeof: Array.isArray(x) tells a list, and === compares with a value"
    if (b == "delete" && is_word(p)) return "there is no delete r.x: set it to undefined, or build a record without it"
    if (b == "void") return "write undefined"
    if (p == "instanceof") return "there is no instanceof: an error is a record, so look at e.name"
    if (p == "in") return "write r[key] !== undefined"
    if (p == "," && before_open(f) == "Error") return "new Error takes its text alone"
    if (top == "r" && p == "[") return "a record has no computed keys: write r[key] = value; behind it"
    if (top == "r" && p == "(" && behind_group(f) == "{") return "functions are no values: write a method"
    if (p == "=" && top == "{" && ends_value(f - 1) && writes_before(f)) return "a write gives no value: write b = x; and then a = b;"
    if (p == "=" && (is_word(b) || b == "]") && ends_value(f - 1) && (top ~ /^[([]$/ || head_of(f - 1) ~ /^(return|let|const|throw)$/)) return "an assignment is a statement of its own and gives no value; to compare write ==="
    return ""
}

# whether a write stands before token i in its statement, which declares nothing
function writes_before(i) {
    if (head_of(i) ~ /^(let|const|var)$/) return 0
    for (; i > 1 && !(token[i - 1] ~ /^[;{}]$/); i--) if (token[i - 1] ~ /^[+-]?=$/) return 1
    return 0
}

function of_new() {
    if (p ~ /^(Map|Set|WeakMap|WeakSet)$/) return "there is no " p ": use a record, r[key] = value"
    if (p == "Date") return "write Date.now(): times are milliseconds"
    if (p ~ /^(Response|Request|Headers|URL)$/) return "a method returns its value: the Worker in front makes the " p
    if (p ~ /Error$/) return "write new Error(text), or throw a record: throw { name: \"" p "\", message: text };"
    if (p == "Array") return "write []"
    if (p == "Promise") return "there are no promises as values: await each call where it stands"
    return "new makes an Error alone"
}

# a statement that ends without its `;`
function of_ends() {
    if (top != "{" || length(stack) < 2 || !ends_value(f - 1)) return ""
    if (b == ")" && before_group(f - 1) ~ /^(if|while|for|catch)$/) return ""
    if (p == "}") return "a statement ends with ; which is never put in: one is missing behind " shown(b) (line[f] > line[f - 1] ? " at the end of line " line[f - 1] : "")
    if (is_word(p) && line[f] > line[f - 1]) return "a statement ends with ; which is never put in: one is missing at the end of line " line[f - 1]
    return ""
}

function shown(text) { return length(text) > 20 ? "the text" : text }

# ---- characters, names, calls

function of_characters() {
    if (p == "`") return "there are no templates: join with +, as \"Hello \" + name"
    if (p == "#" && stack != "") return "there are no private names: take the # away, and set this.name in the constructor"
    if (p ~ /^[&|^~]$/) return "there are no operators of bits"
    if (p == "@") return "there are no decorators"
    if (b ~ /^[0-9]/ && is_glued(f)) return p ~ /^n/ ? "there are no big integers: numbers go to 9007199254740991" : "write the number in decimal digits, as 1000000"
    return ""
}

function of_name(name, member) {
    if (name == "Math" && member == "ceil") return "numbers are whole: (a + b - 1 - (a + b - 1) % b) / b divides and rounds up"
    if (name == "Math" && member ~ /^(floor|trunc|round)$/) return "numbers are whole: (a - a % b) / b divides without a rest"
    if (name == "Math" && member == "random") return of_names["crypto"]
    if (name == "Math" && member == "pow") return "there is no power: multiply in a loop"
    if (name == "Math" && member ~ /^(max|min)$/) return "write a " (member == "max" ? ">" : "<") " b ? a : b"
    if (name == "Math" && member == "abs") return "write a < 0 ? -a : a"
    if (name == "Object" && member == "fromEntries") return "write let r = {}; for (const pair of pairs) { r[pair[0]] = pair[1]; }"
    if (name == "Array" && member == "from") return of_pairs
    if (name == "crypto" && member == "subtle") return "there is no crypto.subtle: have it done outside, and hand in what it gives"
    if (name == "Object" && member ~ /^(entries|values|assign)$/) return "write for (const key of Object.keys(r)) { .. r[key] .. }"
    if (name in of_names) return of_names[name]
    if (a == "(" && is_own(name)) return "write this." name "(..): a method of the object is called so"
    return ""
}

# whether a class of the script has a method of this name
function is_own(name,    i) {
    stack = ""
    for (i = 1; i <= tokens; i++) {
        if (stack == "{" && token[i] == name && token[i + 1] == "(") return 1
        nest(i)
    }
    return 0
}

# of a call or a name that is no form: what is called, along the path that begins at token i
function of_call(i,    object, name) {
    object = token[i] == "this" ? i + 2 : i
    if (token[object] == "env") return of_env(token[object + 2], token[object + 4], token[object + 6])
    if (token[object] == "ctx" && token[object + 2] == "storage" && token[object + 5] == "<") return no_types
    if (token[object] == "ctx" && token[object + 2] in of_ctx) return of_ctx[token[object + 2]]
    if (token[object] == "ctx" && token[object + 2] == "storage" && token[object + 4] in of_storage) return of_storage[token[object + 4]]
    if (token[object] == "ctx" && token[object + 3] != "." && kind == "Form") return "no part of ctx is a value: write the call whole, as this.ctx.storage.get(key)"
    if (token[i] in of_names) return of_name(token[i], token[i + 1] == "." ? token[i + 2] : "")
    name = method_of(i)
    if (name in of_methods) return of_methods[name]
    if (token[i] == "this" && token[i + 1] != "." && kind == "Form") return "this is no value: write this.name or this.m(..)"
    return ""
}

function of_unawaited() {
    if (p == "ctx") return "a constructor asks in its block alone, which is its last statement: ctx.blockConcurrencyWhile(async () => { .. });"
    return "write await before it: what isn't there yet is no value"
}

# of what the environment has
function of_env(class, member, argument) {
    if (member == "getByName") return whole(class)
    if (member ~ /^(idFromName|newUniqueId|idFromString)$/ || member == "get" && is_word(argument)) return "an id or a stub is no value: " whole(class)
    return "env has the classes of the script alone: hand in what else is needed as an argument"
}

function whole(class) { return "write the call whole, await this.env." class ".get(this.env." class ".idFromName(name)).m(..)" }

# the first method that is called on the path
function method_of(i,    open) {
    open = token[i] ~ /^[([]$/
    for (i++; i <= tokens; i++) {
        if (token[i] ~ /^[])]$/ && open-- == 0) return ""
        if (!open && token[i] ~ /^[;,{}]$/) return ""
        if (!open && token[i] == "(" && token[i - 2] == "." && token[i - 1] in of_methods && !(token[i - 3] ~ /ctx|storage/)) return token[i - 1]
        if (token[i] ~ /^[([]$/) open++
    }
    return ""
}

# ---- the tables

function put_all(words, told, into,    n, i, list) {
    n = split(words, list, " ")
    for (i = 1; i <= n; i++) into[list[i]] = told
}

function tables() {
    no_functions = "functions are no values: write a loop, for (const x of list) { .. }, or a method. An arrow is the body of transaction and blockConcurrencyWhile alone"
    no_types = "this is TypeScript: leave its types out"
    of_pairs = "what list and get(keys) give is a list of pairs: let out = []; for (const pair of pairs) { out.push(pair[1]); }"
    of_names["Promise"] = "there are no promises as values: await the calls one after the other"
    of_names["Math"] = "there is no Math: numbers are whole"
    of_names["JSON"] = "there is no JSON: values are stored, passed and answered as they are"
    of_names["console"] = "nothing is logged: return the value, or hand it out by await fetch(value)"
    of_names["crypto"] = "nothing is random: hand the id in as an argument, or count up a stored number"
    of_names["Object"] = "of Object there is keys alone, as a call: Object.keys(r)"
    of_names["Array"] = "of Array there is isArray alone, as a call: Array.isArray(x)"
    of_names["Boolean"] = "write !!x"
    of_names["structuredClone"] = "write const b = a; which copies"
    of_names["scheduler"] = "there are no timers: setAlarm(t) and the method alarm()"
    of_kinds["ConstAssigned"] = "declare it by let: a const isn't written, nor its parts, and push writes one"
    of_kinds["AwaitInSync"] = "write async in front of the method's name; a constructor awaits in its block alone, which is its last statement"
    of_kinds["InTransaction"] = "write it in front of the transaction or behind it; in its body write txn.get(..), txn.put(..), txn.delete(..) and txn.list(..)"
    put_all("parseInt parseFloat Number BigInt", "of these there is Number(text) alone, of whole decimal numbers", of_names)
    put_all("NaN Infinity isNaN isFinite", "numbers are whole and finite: what isn't one throws", of_names)
    put_all("setTimeout setInterval clearTimeout clearInterval", of_names["scheduler"], of_names)
    of_ctx["id"] = "an object doesn't know its name: hand it in as an argument, and store it"
    of_ctx["waitUntil"] = "there is no waitUntil: await the call"
    of_ctx["abort"] = "there is no abort: a throw out of blockConcurrencyWhile resets the object"
    put_all("acceptWebSocket getWebSockets", "there are no web sockets", of_ctx)
    of_storage["sql"] = "there is no SQL: storage has keys and values"
    of_storage["kv"] = "write await this.ctx.storage.get(key) and this.ctx.storage.put(key, value)"
    of_storage["transactionSync"] = "write await this.ctx.storage.transaction(async (txn) => { .. })"
    put_all("map filter forEach find findIndex some every reduce flatMap flat", "write a loop: for (const x of list) { .. }", of_methods)
    put_all("concat unshift", "push in a loop: for (const x of more) { list.push(x); }", of_methods)
    put_all("pop shift splice", "write list = list.slice(from, to), which gives a part", of_methods)
    put_all("has set", "use a record: r[key] = value, and r[key] === undefined tells that it isn't there", of_methods)
    of_methods["get"] = "use a record, r[key]; what list and get(keys) give is a list of pairs, pair[0] and pair[1]"
    put_all("values keys entries", of_methods["get"], of_methods)
    of_methods["join"] = "join in a loop: text = text + \",\" + x"
    put_all("sort reverse toSorted toReversed", "nothing sorts a list: store the items under keys, which list(..) gives in ascending order, or turned round by reverse", of_methods)
    of_methods["toString"] = "write String(x)"
    of_methods["toFixed"] = "numbers are whole: count in cents or thousandths, and String(x) gives the text"
    of_methods["at"] = "write list[list.length - 1]"
    put_all("then catch finally", "write await, and try and catch around it", of_methods)
    put_all("json text", "what fetch gives is the value that the input answered, already read", of_methods)
    put_all("substring substr charAt charCodeAt", "texts have split, startsWith, endsWith, includes and length", of_methods)
    put_all("trim toUpperCase toLowerCase replace replaceAll padStart padEnd repeat match", of_methods["charAt"], of_methods)
    of_methods["hasOwnProperty"] = "write r[key] !== undefined"
}
