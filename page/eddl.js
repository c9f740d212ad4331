// EDDL in the editor: comments, texts, numbers and the words that the engine knows.

/** Tells CodeMirror of the language. */
export function defineEddl(CodeMirror, engine) {
    CodeMirror.defineMode("eddl", () => ({
        startState: () => ({ within: null }),
        token: (stream, state) => token(stream, state, engine),
        lineComment: "//",
        blockCommentStart: "/*",
        blockCommentEnd: "*/",
        fold: "brace",
        electricChars: "}",
        indent: null,
    }));
}

function token(stream, state, engine) {
    if (state.within) {
        return rest(stream, state);
    }
    if (stream.eatSpace()) {
        return null;
    }
    if (stream.match("//")) {
        stream.skipToEnd();
        return "comment";
    }
    if (stream.match("/*")) {
        state.within = "comment";
        return rest(stream, state);
    }
    if (stream.eat("\"")) {
        state.within = "string";
        return rest(stream, state);
    }
    if (stream.match(/^\d\w*/)) {
        return "number";
    }
    if (stream.match(/^[A-Za-z_]\w*/)) {
        return engine.word(stream.current()) ? "keyword" : "variable";
    }
    stream.next();
    return null;
}

function rest(stream, state) {
    const sort = state.within;
    while (!stream.eol()) {
        if (sort === "comment" ? stream.match("*/") : stream.eat("\"")) {
            state.within = null;
            break;
        }
        if (sort === "string" && stream.peek() === "\\") {
            stream.next();
        }
        stream.next();
    }
    return sort;
}
