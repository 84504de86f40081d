// Stand-ins of our own for what the given files use of other crates. Only `fdt_parser` does anything: it gives the nodes of a blob
// in order, with level 1 and the name `/` for the root, as the files that use it expect.
pub use std::collections::HashSet;

// ---- fdt_parser

#[derive(Clone, Debug)]
pub struct Property<'a> {
    pub name: &'a str,
    value: &'a [u8],
}

impl<'a> Property<'a> {
    pub fn raw_value(&self) -> &'a [u8] {
        self.value
    }

    // The first four bytes; a shorter value has none.
    pub fn u32(&self) -> u32 {
        u32::from_be_bytes(self.value[..4].try_into().unwrap())
    }

    pub fn str(&self) -> &'a str {
        let end = self.value.iter().position(|&b| b == 0).unwrap_or(self.value.len());
        std::str::from_utf8(&self.value[..end]).unwrap()
    }
}

#[derive(Clone, Debug)]
pub struct Node<'a> {
    pub level: usize,
    name: &'a str,
    properties: Vec<Property<'a>>,
    // The parent's #address-cells and #size-cells (DTSpec 2.3.5: 2 and 1 where absent).
    cells: (usize, usize),
}

pub struct RegEntry {
    pub address: u64,
}

impl<'a> Node<'a> {
    pub fn name(&self) -> &'a str {
        self.name
    }

    pub fn propertys(&self) -> impl Iterator<Item = Property<'a>> + '_ {
        self.properties.iter().cloned()
    }

    pub fn reg(&self) -> Option<impl Iterator<Item = RegEntry> + 'a> {
        let value = self.properties.iter().find(|p| p.name == "reg")?.value;
        let (address, size) = self.cells;
        let row = 4 * (address + size);
        let rows = value.chunks(row.max(4)).filter(move |r| r.len() == row);
        Some(rows.map(move |r| RegEntry { address: r[..4 * address].iter().fold(0, |n, &b| n << 8 | b as u64) }))
    }

    fn cell(&self, name: &str, other: usize) -> usize {
        let found = self.properties.iter().find(|p| p.name == name && p.value.len() == 4);
        found.map_or(other, |p| p.u32() as usize)
    }
}

#[derive(Debug)]
pub struct Fdt<'a> {
    nodes: Vec<Node<'a>>,
}

fn word(s: &[u8], at: usize) -> usize {
    u32::from_be_bytes(s[at..at + 4].try_into().unwrap()) as usize
}

fn text(s: &[u8], at: usize) -> &str {
    let end = at + s[at..].iter().position(|&b| b == 0).unwrap();
    std::str::from_utf8(&s[at..end]).unwrap()
}

impl<'a> Fdt<'a> {
    // The blob is one that the reader takes; nothing is judged here.
    pub fn from_bytes(blob: &'a [u8]) -> Result<Fdt<'a>, String> {
        let (mut at, strings) = (word(blob, 8), word(blob, 12));
        let mut nodes: Vec<Node<'a>> = Vec::new();
        let mut open: Vec<usize> = Vec::new();
        loop {
            let token = word(blob, at);
            at += 4;
            match token {
                1 => {
                    let name = text(blob, at);
                    let cells = open
                        .last()
                        .map_or((2, 1), |&p| (nodes[p].cell("#address-cells", 2), nodes[p].cell("#size-cells", 1)));
                    at = (at + name.len() + 4) & !3;
                    open.push(nodes.len());
                    let name = if open.len() == 1 { "/" } else { name };
                    nodes.push(Node { level: open.len(), name, properties: Vec::new(), cells });
                }
                2 => {
                    open.pop();
                }
                3 => {
                    let (len, offset) = (word(blob, at), word(blob, at + 4));
                    let value = &blob[at + 8..at + 8 + len];
                    let name = text(blob, strings + offset);
                    nodes[*open.last().unwrap()].properties.push(Property { name, value });
                    at = (at + 8 + len + 3) & !3;
                }
                4 => {}
                9 => return Ok(Fdt { nodes }),
                _ => return Err("token".to_string()),
            }
        }
    }

    pub fn all_nodes(&self) -> impl Iterator<Item = Node<'_>> {
        self.nodes.iter().cloned()
    }
}

// ---- axvm

#[derive(Clone, Debug)]
pub struct VMMemoryRegion {
    pub gpa: GuestPhysAddr,
}

impl VMMemoryRegion {
    pub fn size(&self) -> usize {
        0
    }

    pub fn is_identical(&self) -> bool {
        false
    }
}

pub mod config {
    #[derive(Clone, Debug)]
    pub struct PassThroughDevice {
        pub name: String,
    }

    #[derive(Default)]
    pub struct ImageConfig {
        pub dtb_load_gpa: Option<crate::GuestPhysAddr>,
    }

    #[derive(Default)]
    pub struct AxVMConfig {
        pub image_config: ImageConfig,
        devices: Vec<PassThroughDevice>,
        excluded: Vec<Vec<String>>,
    }

    impl AxVMConfig {
        pub fn new(devices: &[String], excluded: &[String]) -> AxVMConfig {
            AxVMConfig {
                image_config: ImageConfig::default(),
                devices: devices.iter().map(|name| PassThroughDevice { name: name.clone() }).collect(),
                excluded: excluded.iter().map(|path| vec![path.clone()]).collect(),
            }
        }

        pub fn pass_through_devices(&self) -> &Vec<PassThroughDevice> {
            &self.devices
        }

        pub fn excluded_devices(&self) -> &Vec<Vec<String>> {
            &self.excluded
        }
    }

    pub struct Base {
        pub phys_cpu_ids: Option<Vec<usize>>,
    }

    pub struct AxVMCrateConfig {
        pub base: Base,
    }
}

// ---- axaddrspace, memory_addr, and what create.rs names of the crate that it comes from; none of it is run

#[derive(Clone, Copy, Debug)]
pub struct GuestPhysAddr(usize);

impl GuestPhysAddr {
    pub fn as_usize(&self) -> usize {
        self.0
    }
}

impl std::ops::Add<usize> for GuestPhysAddr {
    type Output = GuestPhysAddr;
    fn add(self, n: usize) -> GuestPhysAddr {
        GuestPhysAddr(self.0 + n)
    }
}

impl std::ops::Sub<usize> for GuestPhysAddr {
    type Output = GuestPhysAddr;
    fn sub(self, n: usize) -> GuestPhysAddr {
        GuestPhysAddr(self.0 - n)
    }
}

impl std::fmt::LowerHex for GuestPhysAddr {
    fn fmt(&self, f: &mut std::fmt::Formatter) -> std::fmt::Result {
        self.0.fmt(f)
    }
}

pub trait MemoryAddr: Sized {
    fn align_down(self, n: usize) -> Self;
}

impl MemoryAddr for GuestPhysAddr {
    fn align_down(self, n: usize) -> GuestPhysAddr {
        GuestPhysAddr(self.0 / n * n)
    }
}

pub mod vmm {
    #[derive(Clone)]
    pub struct VMRef;

    impl VMRef {
        pub fn memory_regions(&self) -> Vec<crate::VMMemoryRegion> {
            Vec::new()
        }

        pub fn with_config<R>(&self, f: impl FnOnce(&mut crate::config::AxVMConfig) -> R) -> R {
            f(&mut Default::default())
        }
    }

    pub mod images {
        pub fn load_vm_image_from_memory(_: &[u8], _: crate::GuestPhysAddr, _: super::VMRef) -> Result<(), String> {
            Ok(())
        }
    }
}
