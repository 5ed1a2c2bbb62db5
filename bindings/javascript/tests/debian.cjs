// Debian's webpack and jest ask Node where its modules are. Loaded first, this makes any Node answer like Debian's.
const { variables } = process.config;
const debianVariables = { ...variables, node_prefix: '/usr', node_relative_path: 'share/nodejs' };
Object.defineProperty(process, 'config', { value: { ...process.config, variables: debianVariables } });
