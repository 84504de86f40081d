// What the comparison needs of the writer's private parts: read after the given writer.rs, inside its module.

// A writer and the depths of its open nodes can't be had from outside.
pub struct Seen {
    pub data: Vec<u8>,
    pub strings: Vec<u8>,
    pub off_dt_struct: u32,
    pub node_depth: usize,
    pub node_ended: bool,
    pub boot_cpuid_phys: u32,
}

impl FdtWriter {
    pub fn seen(&self) -> Seen {
        Seen {
            data: self.data.clone(),
            strings: self.strings.clone(),
            off_dt_struct: self.off_dt_struct,
            node_depth: self.node_depth,
            node_ended: self.node_ended,
            boot_cpuid_phys: self.boot_cpuid_phys,
        }
    }

    // A second writer in the same state, so that a call can be tried.
    pub fn again(&self) -> FdtWriter {
        FdtWriter {
            data: self.data.clone(),
            off_mem_rsvmap: self.off_mem_rsvmap,
            off_dt_struct: self.off_dt_struct,
            strings: self.strings.clone(),
            string_offsets: self.string_offsets.clone(),
            node_depth: self.node_depth,
            node_ended: self.node_ended,
            boot_cpuid_phys: self.boot_cpuid_phys,
            phandles: self.phandles.clone(),
        }
    }

    pub fn knows_phandle(&self, val: u32) -> bool {
        self.phandles.contains(&val)
    }
}

// The handle that an opening at this depth gave.
pub fn node_at(depth: usize) -> FdtWriterNode {
    FdtWriterNode { depth }
}

pub fn valid_node_name(name: &str) -> bool {
    node_name_valid(name)
}

pub fn valid_property_name(name: &str) -> bool {
    property_name_valid(name)
}

pub fn overlap(entries: &[FdtReserveEntry]) -> bool {
    check_overlapping(entries).is_err()
}
