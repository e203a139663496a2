//! Links the proved static library `libusb_core_c.a` where it was built: in the folder that the
//! environment variable USB_CORE_C names, else in crates/usb_core_c/out. Where memory is taken, the
//! kit's `liblibc_c.a` has to lie beside it.

use std::env;
use std::path::PathBuf;

fn main() {
    println!("cargo::rustc-check-cfg=cfg(usb_core_c)");
    println!("cargo::rerun-if-env-changed=USB_CORE_C");
    let folder = env::var_os("USB_CORE_C").map(PathBuf::from);
    let folder = folder.unwrap_or_else(|| {
        let here = env::var_os("CARGO_MANIFEST_DIR").expect("cargo names the crate's folder");
        PathBuf::from(here).join("../../crates/usb_core_c/out")
    });
    for (library, is_needed) in [("usb_core_c", true), ("libc_c", false)] {
        let archive = folder.join(format!("lib{library}.a"));
        println!("cargo::rerun-if-changed={}", archive.display());
        if archive.is_file() {
            println!("cargo::rustc-link-lib=static={library}");
        } else if is_needed {
            return;
        }
    }
    println!("cargo::rustc-link-search=native={}", folder.display());
    println!("cargo::rustc-cfg=usb_core_c");
}
