//! What a crash may leave of a file in memory.
use blot_journal::{Change, MemoryDevice};
use std::alloc::{AllocError as NoMemory, Global};

/// Which part of a change is on the disk: the bytes from one place to another, and noise in its other bytes or none.
#[derive(Clone, Copy)]
pub struct Part {
    pub from: usize,
    pub to: usize,
    pub noise: bool,
}

/// The parts of a change that are tried.
pub fn parts_of(alloc: Global, change: &Change) -> Result<Vec<Part>, NoMemory> {
    let mut parts = Vec::new(alloc);
    let size = match change {
        Change::Write(_, bytes) => bytes.len(),
        Change::Cut(_) => 1,
    };
    for place in 0..=size {
        for part in [
            Part {
                from: 0,
                to: place,
                noise: false,
            },
            Part {
                from: place,
                to: size,
                noise: false,
            },
            Part {
                from: 0,
                to: place,
                noise: true,
            },
        ] {
            parts.push(part)?;
        }
    }
    Ok(parts)
}

/// A few of them: none, half, all, and noise alone.
pub fn few_of(change: &Change) -> [Part; 4] {
    let size = match change {
        Change::Write(_, bytes) => bytes.len(),
        Change::Cut(_) => 1,
    };
    [
        Part {
            from: 0,
            to: 0,
            noise: false,
        },
        Part {
            from: 0,
            to: size / 2,
            noise: false,
        },
        Part {
            from: 0,
            to: size,
            noise: false,
        },
        Part {
            from: 0,
            to: 0,
            noise: true,
        },
    ]
}

/// Does a part of a change to a file.
pub fn apply(file: &mut Vec<u8>, change: &Change, part: Part) -> Result<(), NoMemory> {
    match change {
        Change::Cut(len) => {
            if part.to > part.from && *len < file.len() {
                file.truncate(*len);
            }
        }
        Change::Write(at, bytes) => {
            for (place, byte) in bytes.iter().enumerate() {
                let kept = part.from <= place && place < part.to;
                if !kept && !part.noise {
                    continue;
                }
                while file.len() <= *at + place {
                    file.push(0)?;
                }
                file[*at + place] = if kept { *byte } else { 0xEE };
            }
        }
    }
    Ok(())
}

/// The images of one change, or of two: each part of the one beside a few of the other.
pub fn images(alloc: Global, device: &MemoryDevice) -> Result<Vec<Vec<u8>>, NoMemory> {
    let mut images = Vec::new(alloc);
    images.push(device.durable().to_vec(alloc)?)?;
    match device.changes() {
        [] => {}
        [only] => {
            for part in parts_of(alloc, only)?.iter() {
                let mut file = device.durable().to_vec(alloc)?;
                apply(&mut file, only, *part)?;
                images.push(file)?;
            }
        }
        [first, second, ..] => {
            for (one, other, is_turned) in [(first, second, false), (second, first, true)] {
                for part in parts_of(alloc, one)?.iter() {
                    for beside in few_of(other) {
                        let mut file = device.durable().to_vec(alloc)?;
                        let (now, then) = if is_turned {
                            (beside, *part)
                        } else {
                            (*part, beside)
                        };
                        apply(&mut file, first, now)?;
                        apply(&mut file, second, then)?;
                        images.push(file)?;
                    }
                }
            }
        }
    }
    Ok(images)
}

/// A few images of any count of changes: each of them as far as `few_of` says, in every combination.
pub fn few_images(alloc: Global, device: &MemoryDevice) -> Result<Vec<Vec<u8>>, NoMemory> {
    let mut images = Vec::new(alloc);
    images.push(device.durable().to_vec(alloc)?)?;
    for change in device.changes() {
        let mut more = Vec::new(alloc);
        for image in images.iter() {
            for part in few_of(change) {
                let mut file = image.to_vec(alloc)?;
                apply(&mut file, change, part)?;
                more.push(file)?;
            }
        }
        images = more;
    }
    Ok(images)
}
