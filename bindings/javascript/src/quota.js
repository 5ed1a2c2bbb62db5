// The quota of processor time that cgroups of Linux give a process, as containers and systemd's `CPUQuota` set it.

// Where Linux lists the cgroups of this process.
const OWN_CGROUPS = '/proc/self/cgroup';
// The hierarchy of version 2, which has no controller's name, and that of version 1: where Linux shows its cgroups as
// folders, and the files of a cgroup's quota and its period in microseconds. `max` or -1 means no quota.
const HIERARCHIES = [
    { controller: '', top: '/sys/fs/cgroup', files: ['cpu.max'] },
    { controller: 'cpu', top: '/sys/fs/cgroup/cpu', files: ['cpu.cfs_quota_us', 'cpu.cfs_period_us'] },
];

/** The folders of this process's cgroup and of all above it, whose quotas count too. */
function foldersOf({ controller, top }, read) {
    const lines = read(OWN_CGROUPS).split('\n').map((line) => line.split(':'));
    const [, , ...path] = lines.find(([, names]) => names?.split(',').includes(controller)) ?? [];
    const parts = path.join(':').split('/').filter((part) => part !== '');
    // (In a container the path may be the host's: then only the top folder, which is the container's, exists.)
    return [top, ...parts].map((_, i, all) => all.slice(0, i + 1).join('/'));
}

/** The whole processors of a cgroup's quota; infinity if it has none. */
function processorsOf(folder, files, read) {
    const [quota, period] = files.flatMap((file) => read(`${folder}/${file}`).trim().split(' ')).map(Number);
    return quota > 0 ? Math.floor(quota / period) : Infinity;
}

/** The whole processors of the lowest quota, or infinity. `read` returns a file's text, or '' if there is none. */
export function processorsOfQuota(read) {
    return Math.min(...HIERARCHIES.flatMap((hierarchy) =>
        foldersOf(hierarchy, read).map((folder) => processorsOf(folder, hierarchy.files, read))));
}
