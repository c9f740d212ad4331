// Starts the language server `edd lsp` for descriptions, stops it with the editor, and runs what the server offers above lines.
const childProcess = require("child_process");
const fs = require("fs");
const vscode = require("vscode");
const { LanguageClient } = require("vscode-languageclient/node");

let client;

function program() {
    return vscode.workspace.getConfiguration("edd").get("program");
}

// The words that name the simulated device of a description, which lies beside it.
function deviceWords(source) {
    const device = source.replace(/(\.device)?\.edd$/, ".device.edd");
    return device !== source && fs.existsSync(device) ? ["--device", device] : [];
}

// A terminal with what the program prints, which stays after its end. No shell reads the words.
function show(name, words) {
    const written = new vscode.EventEmitter();
    const write = text => written.fire(text.replace(/\r?\n/g, "\r\n"));
    let child;
    const open = () => {
        child = childProcess.spawn(program(), words, { stdio: ["ignore", "pipe", "pipe"] });
        for (const stream of [child.stdout, child.stderr]) {
            stream.setEncoding("utf8").on("data", write);
        }
        child.on("error", error => write(`${error.message}\n`));
        child.on("close", status => write(`\nedd ended with status ${status}\n`));
    };
    vscode.window.createTerminal({ name, pty: { onDidWrite: written.event, open, close: () => child && child.kill() } }).show();
}

// The file that a command is about, with what was typed into it saved: that of the editor where none is named.
async function savedFile(name) {
    const active = vscode.window.activeTextEditor;
    const uri = name ? vscode.Uri.parse(name.toString()) : active && active.document.uri;
    if (!uri || uri.scheme !== "file") {
        vscode.window.showErrorMessage("edd: no file is open");
        return undefined;
    }
    const open = vscode.workspace.textDocuments.find(document => document.uri.toString() === uri.toString());
    return !open || !open.isDirty || await open.save() ? uri : undefined;
}

async function chosenMethod(uri) {
    const symbols = await vscode.commands.executeCommand("vscode.executeDocumentSymbolProvider", uri) || [];
    const methods = symbols.filter(symbol => symbol.kind === vscode.SymbolKind.Method).map(symbol => symbol.name);
    return vscode.window.showQuickPick(methods, { placeHolder: "The method that is run" });
}

async function runMethod(name, method) {
    const uri = await savedFile(name);
    const chosen = uri && (method || await chosenMethod(uri));
    if (chosen) {
        show(`run ${chosen}`, ["try", uri.fsPath, chosen, ...deviceWords(uri.fsPath)]);
    }
}

async function runTest(name, test) {
    const uri = await savedFile(name);
    if (uri) {
        show(test ? `test ${test}` : "test", ["test", uri.fsPath, ...(test ? ["--filter", test] : [])]);
    }
}

async function openInstrument(name) {
    const uri = await savedFile(name);
    if (uri) {
        const shellArgs = ["open", uri.fsPath, ...deviceWords(uri.fsPath)];
        vscode.window.createTerminal({ name: "instrument", shellPath: program(), shellArgs }).show();
    }
}

exports.activate = async context => {
    const commands = { "edd.runMethod": runMethod, "edd.runTest": runTest, "edd.openInstrument": openInstrument };
    for (const [name, command] of Object.entries(commands)) {
        context.subscriptions.push(vscode.commands.registerCommand(name, command));
    }
    // Tests and scripts belong to the descriptions that they name or lie beside.
    const documentSelector = [{ language: "edd" }, { scheme: "file", pattern: "**/*.{test,script}" }];
    const fileEvents = vscode.workspace.createFileSystemWatcher("**/*.{edd,test,script}");
    context.subscriptions.push(fileEvents);
    client = new LanguageClient("edd", "EDDL", { command: program(), args: ["lsp"] }, { documentSelector, synchronize: { fileEvents } });
    await client.start();
};

exports.deactivate = () => client && client.stop();
