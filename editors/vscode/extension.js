// Starts spindap, which stands on the PATH. Not tried: written by the documents of Visual Studio Code.
const vscode = require('vscode');
exports.activate = (context) => {
  const factory = { createDebugAdapterDescriptor: () => new vscode.DebugAdapterExecutable('spindap') };
  context.subscriptions.push(vscode.debug.registerDebugAdapterDescriptorFactory('promela', factory));
};
