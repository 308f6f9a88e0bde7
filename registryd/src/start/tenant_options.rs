//! The tenants that the options name, and the mirrors among them.
use crate::metadata::bounds::Bounds;
use crate::mirror::address::{Address, MirrorOf};
use crate::start::options::Options;
use crate::tenants::file;
use crate::tenants::words::Tenant;

impl Options {
    /// Returns what to give if there is no tenant.
    pub(super) fn without_tenants(&self) -> Option<String> {
        let path = self.tenants_file.as_ref().filter(|_| self.tenants.is_empty() && self.tenant_lines.is_empty())?;
        Some(format!("no tenant: {}: write a line TENANT=QUOTA[,BLOBS], or give an argument", path.display()))
    }

    /// Reads the file of tenants, if there is one.
    ///
    /// # Errors
    ///
    /// - The file cannot be read.
    /// - A line is wrong, or its tenant is an argument too. The message has the number of the first such line.
    pub(crate) fn read_tenants(&mut self) -> Result<(), String> {
        if let Some(path) = &self.tenants_file {
            self.tenant_lines = file::read(path, &self.argument_names())?;
        }
        Ok(())
    }

    /// Returns the number of mirrors.
    pub(super) fn mirror_count(&self) -> u64 {
        self.mirror_of.len() as u64
    }

    /// Returns the tenants that are mirrors, each with the address of its upstream.
    ///
    /// # Errors
    ///
    /// - A tenant is not served, or has two upstreams.
    /// - An upstream names no tenant, and several are served.
    pub(super) fn mirrors(&self) -> Result<Vec<(String, Address)>, String> {
        let names = self.tenant_names();
        let mut found: Vec<(String, Address)> = Vec::new();
        for MirrorOf { tenant, address } in &self.mirror_of {
            let url = address.text();
            let tenant = match (tenant, &names[..]) {
                (Some(tenant), _) => tenant.clone(),
                (None, [only]) => only.clone(),
                (None, _) => return Err(format!("which tenant is a mirror of {url}? write --mirror-of TENANT={url}")),
            };
            if !names.contains(&tenant) {
                return Err(format!("cannot mirror {url}: no such tenant: {tenant}"));
            }
            if found.iter().any(|(other, _)| *other == tenant) {
                return Err(format!("cannot mirror {url}: tenant {tenant} is a mirror of another registry"));
            }
            found.push((tenant, address.clone()));
        }
        Ok(found)
    }

    /// Returns the tenants of the command line, each without bounds of its own, and then those of the file.
    pub(super) fn tenants_with_bounds(&self) -> Vec<(Tenant, Bounds)> {
        let arguments = self.tenants.iter().filter_map(|word| Some((Tenant::of(word)?, Bounds::default())));
        arguments.chain(self.tenant_lines.iter().map(|line| (line.tenant.clone(), line.bounds))).collect()
    }

    /// Returns the tenants.
    pub(super) fn tenants(&self) -> Vec<Tenant> {
        self.tenants_with_bounds().into_iter().map(|(tenant, _)| tenant).collect()
    }

    /// Returns the names of the tenants of the command line.
    pub(super) fn argument_names(&self) -> Vec<String> {
        self.tenants.iter().filter_map(|word| Some(Tenant::of(word)?.name)).collect()
    }

    /// Returns the names of the tenants.
    pub(super) fn tenant_names(&self) -> Vec<String> {
        self.tenants().into_iter().map(|tenant| tenant.name).collect()
    }
}

#[cfg(test)]
mod tests {
    use super::*;
    use crate::start::options::parsed;
    use clap::Parser;

    #[test]
    fn a_mirror_has_one_tenant_and_one_upstream() {
        let of = |words: &[&str]| parsed(words).mirrors();
        let tenants = |words: &[&str]| of(words).unwrap().into_iter().map(|(tenant, _)| tenant).collect::<Vec<_>>();
        assert!(tenants(&["a=1"]).is_empty());
        assert_eq!(tenants(&["--mirror-of", "https://x", "a=1"]), ["a"]);
        assert_eq!(tenants(&["--mirror-of", "b=https://x", "--mirror-of", "a=http://y/z", "a=1", "b=1"]), ["b", "a"]);
        let wrong: [&[&str]; 3] = [
            &["--mirror-of", "https://x", "a=1", "b=1"],
            &["--mirror-of", "c=https://x", "a=1"],
            &["--mirror-of", "a=https://x", "--mirror-of", "https://y", "a=1"],
        ];
        for words in wrong {
            assert!(parsed(words).conflict().is_some(), "{words:?}");
        }
        for words in [["--mirror-credentials", "f"], ["--mirror-s", "9"]] {
            assert!(Options::try_parse_from([&["registryd"], &words[..], &["a=1"]].concat()).is_err());
        }
    }

    #[test]
    fn tenants_come_from_a_file_too() {
        let path = std::env::temp_dir().join(format!("registryd-tenants-{}", std::process::id()));
        let words = ["--tenants", path.to_str().unwrap()];
        let read = |text: &str, arguments: &[&str]| {
            std::fs::write(&path, text).unwrap();
            let mut options = parsed(&[&words, arguments].concat());
            options.read_tenants().map(|()| options)
        };
        let options = read("b=2,3 tags=4\nc=5\n", &["--tags", "6", "z=1", "a=1"]).unwrap();
        assert_eq!((options.tenant_names(), options.conflict()), (["z", "a", "b", "c"].map(str::to_string).into(), None));
        let with_bounds = options.tenants_with_bounds();
        assert_eq!(with_bounds[2], (Tenant::of("b=2,3").unwrap(), Bounds { tags: Some(4), ..Bounds::default() }));
        assert_eq!((with_bounds[0].1, with_bounds[3].1), (Bounds::default(), Bounds::default()));
        assert!(read("a=2\n", &["z=1", "a=1"]).unwrap_err().ends_with(": line 1: duplicate tenant: a: it is an argument too"));
        assert!(read("# none\n", &[]).unwrap().conflict().unwrap().starts_with("no tenant: "));
        assert!(read("# none\n", &["a=1"]).unwrap().conflict().is_none());
        std::fs::remove_file(&path).unwrap();
        let why = parsed(&words).read_tenants().unwrap_err();
        assert!(why.starts_with(&format!("cannot read the tenants: {}: ", path.display())), "{why}");
    }
}
