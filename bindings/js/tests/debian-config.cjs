// Debian's webpack asks Node where Debian's packages are. Only Debian's Node has this setting, and another Node has the
// value here, which is the same.
const { variables } = process.config;
if (variables.node_relative_path === undefined) {
  Object.defineProperty(process, 'config', { value: { ...process.config, variables: { ...variables, node_relative_path: 'share/nodejs' } } });
}
