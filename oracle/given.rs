// The given files, unchanged, in modules of the names that they use of each other.
pub mod vm_fdt {
    // The writer with the name lengths that document 01 gives: 31 for both.
    #[allow(dead_code)]
    pub mod writer {
        include!("shared/src--src--vmm--fdt--vm_fdt--writer.rs.txt");
        include!("private.rs");
    }
    pub use writer::{FdtWriter, FdtWriterNode};
    pub const FDT_MAGIC: u32 = 0xd00dfeed;
    pub const FDT_BEGIN_NODE: u32 = 1;
    pub const FDT_END_NODE: u32 = 2;
    pub const FDT_PROP: u32 = 3;
    pub const FDT_END: u32 = 9;
    pub const NODE_NAME_MAX_LEN: usize = 31;
    pub const PROPERTY_NAME_MAX_LEN: usize = 31;
}

// The writer with the name lengths of its own mod.rs: property names to 63 bytes. For docs/DIFFERENCES.md only.
pub mod own_lengths {
    #[allow(dead_code)]
    pub mod writer {
        include!("shared/src--src--vmm--fdt--vm_fdt--writer.rs.txt");
        include!("private.rs");
    }
    pub use super::vm_fdt::{FDT_BEGIN_NODE, FDT_END, FDT_END_NODE, FDT_MAGIC, FDT_PROP};
    pub const NODE_NAME_MAX_LEN: usize = 31;
    pub const PROPERTY_NAME_MAX_LEN: usize = 63;
}

#[allow(dead_code)]
#[path = "shared/src--src--vmm--fdt--device.rs.txt"]
pub mod device;

#[allow(dead_code)]
#[path = "shared/src--src--vmm--fdt--create.rs.txt"]
pub mod create;

// create.rs looks for it in the module above.
pub use device::build_node_path;
