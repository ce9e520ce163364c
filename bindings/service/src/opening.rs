use crate::options::{Context, ServiceOptions};
use crate::service::Service;
use crate::signals::without_signals;
use crate::status::{answered, DONE};
use crate::why::Why;
use kilambosetry::border;
use kilambosetry::{HybridCache, OpenError, Options, PageDevice};
use std::ffi::{c_char, c_void, CStr, OsStr};
use std::io;
use std::os::unix::ffi::OsStrExt;
use std::ptr;

/// A device of the caller's own: `kilambosetry_device`.
#[repr(C)]
pub struct ServiceDevice {
    read: extern "C" fn(context: *mut c_void, page: u32, out: *mut u8, len: usize) -> bool,
    write: extern "C" fn(context: *mut c_void, page: u32, bytes: *const u8, len: usize) -> bool,
    context: *mut c_void,
}

struct Device {
    read: extern "C" fn(context: *mut c_void, page: u32, out: *mut u8, len: usize) -> bool,
    write: extern "C" fn(context: *mut c_void, page: u32, bytes: *const u8, len: usize) -> bool,
    context: Context,
}

impl Device {
    fn new(of: &ServiceDevice) -> Device {
        Device { read: of.read, write: of.write, context: Context::new(of.context) }
    }
}

fn done(is_done: bool) -> io::Result<()> {
    is_done.then_some(()).ok_or(io::ErrorKind::Other.into())
}

impl PageDevice for Device {
    fn read(&self, page: u32, out: &mut [u8]) -> io::Result<()> {
        done((self.read)(self.context.at(), page, out.as_mut_ptr(), out.len()))
    }

    fn write(&self, page: u32, bytes: &[u8]) -> io::Result<()> {
        done((self.write)(self.context.at(), page, bytes.as_ptr(), bytes.len()))
    }
}

// Opens a service. Its threads take no signals.
fn open(
    service: &mut *mut Service,
    options: &ServiceOptions,
    why: Option<&mut Why>,
    make: impl FnOnce(&Options) -> Result<HybridCache, OpenError>,
) -> u8 {
    let mut unasked = Why::default();
    let why = why.unwrap_or(&mut unasked);
    *why = Why::default();
    *service = ptr::null_mut();
    answered(|| {
        let opened = options.to_options().and_then(|options| without_signals(|| make(&options)));
        let boxed = opened.and_then(|cache| Ok(border::boxed(Service::new(cache))?));
        Ok(match boxed {
            Ok(opened) => {
                *service = Box::into_raw(opened);
                DONE
            }
            Err(error) => why.note(error),
        })
    })
}

#[no_mangle]
unsafe extern "C" fn kilambosetry_service_open(
    service: &mut *mut Service,
    path: *const c_char,
    options: &ServiceOptions,
    why: Option<&mut Why>,
) -> u8 {
    // SAFETY: the path is a text of the caller's, which ends with a zero.
    let path = OsStr::from_bytes(unsafe { CStr::from_ptr(path) }.to_bytes());
    open(service, options, why, |options| HybridCache::open(path, options))
}

#[no_mangle]
extern "C" fn kilambosetry_service_open_over(
    service: &mut *mut Service,
    device: &ServiceDevice,
    options: &ServiceOptions,
    why: Option<&mut Why>,
) -> u8 {
    open(service, options, why, |options| HybridCache::over(Device::new(device), options))
}

#[no_mangle]
extern "C" fn kilambosetry_service_open_in_memory(
    service: &mut *mut Service,
    options: &ServiceOptions,
    why: Option<&mut Why>,
) -> u8 {
    open(service, options, why, HybridCache::in_memory)
}

#[no_mangle]
extern "C" fn kilambosetry_service_shut(service: &Service) {
    service.shut();
}

#[no_mangle]
unsafe extern "C" fn kilambosetry_service_close(service: *mut Service) {
    // SAFETY: it is null, or was opened, and no call begins any more.
    let Some(opened) = (unsafe { service.as_ref() }) else { return };
    opened.shut();
    answered(|| {
        // SAFETY: it was boxed when it was opened, and no call is under way.
        drop(unsafe { Box::from_raw(service) });
        Ok(DONE)
    });
}
