//! The resources of the machine: what the tenants together may take of them, and what a start needs.
use crate::folder::{disk_room, files};
use crate::start::default_shares::default_share;
use crate::tenants::words::Tenant;
use std::fs::read_to_string;
use std::path::{Path, PathBuf};

/// Returns the memory that this program may use with its children: that of the machine, or the limit of its control group if
/// that is lower. Returns `None` if neither is known.
fn memory() -> Option<u64> {
    let machine = read_to_string("/proc/meminfo").ok().and_then(|text| total_of(&text));
    let group = read_to_string("/proc/self/cgroup").ok().and_then(|text| {
        let path = text.lines().find_map(|line| line.strip_prefix("0::"))?;
        read_to_string(format!("/sys/fs/cgroup{path}/memory.max")).ok()?.trim().parse().ok()
    });
    machine.into_iter().chain(group).min()
}

/// Returns the total of the text of `/proc/meminfo`, in bytes.
fn total_of(text: &str) -> Option<u64> {
    let line = text.lines().find_map(|line| line.strip_prefix("MemTotal:"))?;
    Some(line.trim().strip_suffix("kB")?.trim().parse::<u64>().ok()? << 10)
}

/// Warns if the tenants together may take more slots than there are, or more memory, or, with a folder, more of its disk.
pub(super) fn warn_of_sums(tenants: &[Tenant], slots: u32, folder: Option<&Path>) {
    let default = default_share(slots, tenants.len()).unwrap_or_else(|| u64::from(slots));
    let shares = tenants.iter().map(|tenant| tenant.share.unwrap_or(default)).sum::<u64>();
    if shares > u64::from(slots) {
        tracing::warn!(shares, slots, "the shares together exceed the slots: one tenant can take those of another");
    }
    let quotas = tenants.iter().map(|tenant| tenant.quota).fold(0, u64::saturating_add);
    match folder {
        Some(folder) => {
            if let Some(disk) = disk_room::length_of(folder).filter(|disk| quotas > *disk) {
                tracing::warn!(quotas, disk, "the quotas together exceed the disk: one tenant can fill it");
            }
        }
        None => {
            if let Some(memory) = memory().filter(|memory| quotas > *memory) {
                tracing::warn!(quotas, memory, "the quotas together exceed the memory: the store can run out of memory");
            }
        }
    }
}

/// Returns the number of available bytes in the text of `/proc/meminfo`.
fn available_in(text: &str) -> Option<u64> {
    let number = text.lines().find_map(|line| line.strip_prefix("MemAvailable:"))?.trim().strip_suffix("kB")?;
    number.trim().parse::<u64>().ok()?.checked_mul(1024)
}

/// Returns the bytes of memory that are available on this machine, or all of them if `/proc/meminfo` is hidden.
fn available_on_machine() -> Option<u64> {
    if let Ok(text) = read_to_string("/proc/meminfo") {
        return available_in(&text);
    }
    // SAFETY: zeros are a value of the struct, which has only numbers.
    let mut info: libc::sysinfo = unsafe { std::mem::zeroed() };
    // SAFETY: `info` has room for the struct that the call writes.
    match unsafe { libc::sysinfo(&mut info) } {
        0 => Some(info.totalram.saturating_mul(info.mem_unit.into())),
        _ => None,
    }
}

/// Returns the least limit on the memory of a control group and of those that contain it, in bytes. `own` is the text of
/// `/proc/self/cgroup`, and `top` the folder of all groups (cgroups(7), version 2).
fn group_limit(own: &str, top: &Path) -> Option<u64> {
    let own = own.lines().find_map(|line| line.strip_prefix("0::/"))?;
    let limit_of = |group: PathBuf| read_to_string(group.join("memory.max")).ok()?.trim().parse().ok();
    Path::new(own).ancestors().filter_map(|group| limit_of(top.join(group))).min()
}

/// Returns the bytes of memory that this program may take, if that is known.
fn available_memory() -> Option<u64> {
    let limit = read_to_string("/proc/self/cgroup").ok().and_then(|own| group_limit(&own, Path::new("/sys/fs/cgroup")));
    available_on_machine().into_iter().chain(limit).min()
}

/// Warns if a start may not have what it needs for the log in a folder, if there is one. The store keeps small contents of the log in
/// memory. If the log has long ones too, it writes them to files.
pub(crate) fn warn_of_log(log_bytes: u64, folder: Option<&Path>) {
    match folder.filter(|folder| log_bytes > 0 && !files::has_contents(folder)) {
        Some(folder) => {
            tracing::info!(log_bytes, "the long contents of the log are written to files, if it has some");
            if let Some(free) = disk_room::free_on(folder).filter(|free| log_bytes > *free) {
                tracing::warn!(log_bytes, free, "the disk may lack room for files of the contents of the log");
            }
        }
        None => {
            if let Some(available) = available_memory().filter(|available| log_bytes > *available) {
                tracing::warn!(log_bytes, available, "the log is longer than the available memory: the start may run out of it");
            }
        }
    }
}

#[cfg(test)]
mod tests {
    use super::*;

    #[test]
    fn the_total_is_in_bytes() {
        assert_eq!(total_of("MemTotal:       16384 kB\nMemFree: 1 kB\n"), Some(16 << 20));
        assert_eq!(total_of("MemFree: 1 kB\n"), None);
    }

    #[test]
    fn the_least_limit_of_the_groups_counts() {
        let top = std::env::temp_dir().join(format!("registryd-groups-{}", std::process::id()));
        std::fs::create_dir_all(top.join("a/b")).unwrap();
        let put = |group: &str, text: &str| std::fs::write(top.join(group).join("memory.max"), text).unwrap();
        put("a/b", "max\n");
        assert_eq!(group_limit("0::/a/b\n", &top), None);
        put("a", "70\n");
        put("", "90\n");
        assert_eq!(group_limit("1:cpu:/x\n0::/a/b\n", &top), Some(70));
        assert_eq!((group_limit("0::/\n", &top), group_limit("1:cpu:/x\n", &top)), (Some(90), None));
        std::fs::remove_dir_all(top).unwrap();
    }

    #[test]
    fn available_bytes_are_read() {
        assert_eq!(available_in("MemTotal: 9 kB\nMemAvailable:    3 kB\n"), Some(3072));
        assert_eq!([available_in(""), available_in("MemAvailable: x kB")], [None; 2]);
    }
}
