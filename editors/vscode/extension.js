// What `forec lint` finds in a program is shown when the program is opened and when it is saved; and tasks that lint and check it. The
// command is `forec` on the path, or what the setting forec.command names.
"use strict";

const { execFile } = require("child_process");
const vscode = require("vscode");

// The findings of `forec lint --format json` as diagnostics: places count from 1 there, and in bytes.
function diagnostics(text, uri, findings) {
  const lines = text.split("\n");
  const at = (line, column) => {
    const shown = lines[line - 1] || "";
    const before = Buffer.from(shown, "utf8").subarray(0, column - 1).toString("utf8").length;
    const word = /^\w+|^./.exec(shown.slice(before));
    return new vscode.Range(line - 1, before, line - 1, before + (word ? word[0].length : 0));
  };
  return findings.map((found) => {
    const level = found.severity === "error" ? vscode.DiagnosticSeverity.Error : vscode.DiagnosticSeverity.Warning;
    const shown = new vscode.Diagnostic(at(found.line, found.column), found.text, level);
    shown.source = "forec";
    shown.code = /^\d+$/.test(found.kind) ? `rule ${found.kind}` : found.kind;
    shown.relatedInformation = found.notes.map(
      (note) => new vscode.DiagnosticRelatedInformation(new vscode.Location(uri, at(note.line, note.column)), note.text));
    return shown;
  });
}

function command() {
  return vscode.workspace.getConfiguration("forec").get("command") || "forec";
}

// Looks at a file that is saved, and shows what is found in it.
function look(document, shown) {
  if (document.languageId !== "forec" || document.uri.scheme !== "file") {
    return;
  }
  const words = ["lint", "--check", "--format", "json", "--", document.fileName];
  execFile(command(), words, { timeout: 20000, maxBuffer: 1 << 26 }, (fault, output, said) => {
    try {
      shown.set(document.uri, diagnostics(document.getText(), document.uri, JSON.parse(output)));
    } catch {
      shown.delete(document.uri);
      vscode.window.setStatusBarMessage(`forec lint: ${(said || String(fault)).trim().split("\n")[0]}`, 10000);
    }
  });
}

// The tasks that are offered for a program: what lint finds, and what check says.
const tasks = {
  provideTasks() {
    const editor = vscode.window.activeTextEditor;
    if (!editor || editor.document.languageId !== "forec") {
      return [];
    }
    const file = editor.document.fileName;
    const task = (name, words, matchers) => new vscode.Task({ type: "forec", task: name }, vscode.TaskScope.Workspace, name, "forec",
      new vscode.ProcessExecution(command(), words), matchers);
    return [task("lint", ["lint", "--check", "--format", "gcc", "--", file], ["$forec"]), task("test", ["test", file], [])];
  },
  resolveTask() {
    return undefined;
  },
};

function activate(context) {
  const shown = vscode.languages.createDiagnosticCollection("forec");
  context.subscriptions.push(
    shown,
    vscode.workspace.onDidOpenTextDocument((document) => look(document, shown)),
    vscode.workspace.onDidSaveTextDocument((document) => look(document, shown)),
    vscode.workspace.onDidCloseTextDocument((document) => shown.delete(document.uri)),
    vscode.tasks.registerTaskProvider("forec", tasks));
  vscode.workspace.textDocuments.forEach((document) => look(document, shown));
}

module.exports = { activate };
