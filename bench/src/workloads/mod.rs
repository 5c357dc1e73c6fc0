//! The list of groups. A group is a file here with `pub fn workloads() -> Vec<Box<dyn Workload>>`; its name is one line of the list.
use crate::Workload;

macro_rules! groups {
    ($($name:ident,)*) => {
        $(mod $name;)*
        pub fn all() -> Vec<Box<dyn Workload>> {
            let mut all = Vec::new();
            $(all.extend($name::workloads());)*
            all
        }
    };
}

groups! {
    floats,
    target,
    sampling,
    texels,
    texture,
    draw,
}
