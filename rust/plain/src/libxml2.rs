//! libxml2's validation by a DTD, for the benchmark. The shared library is named by its file, so that no header and no package
//! for developers is needed.

use std::ffi::{c_char, c_int, c_void};
use std::ptr::{null, null_mut};

/// What libxml2 hands over and takes back.
type Handle = *mut c_void;

#[link(name = "libxml2.so.2", kind = "dylib", modifiers = "+verbatim")]
extern "C" {
    fn xmlReadMemory(text: *const c_char, size: c_int, url: *const c_char, encoding: *const c_char, options: c_int) -> Handle;
    fn xmlParserInputBufferCreateMem(text: *const c_char, size: c_int, encoding: c_int) -> Handle;
    fn xmlIOParseDTD(sax: Handle, input: Handle, encoding: c_int) -> Handle;
    fn xmlNewValidCtxt() -> Handle;
    fn xmlValidateDtd(context: Handle, document: Handle, dtd: Handle) -> c_int;
    fn xmlSetStructuredErrorFunc(context: Handle, handler: Option<extern "C" fn(Handle, Handle)>);
    fn xmlFreeValidCtxt(context: Handle);
    fn xmlFreeDtd(dtd: Handle);
    fn xmlFreeDoc(document: Handle);
}

/// Says nothing of what is not valid.
extern "C" fn silent(_: Handle, _: Handle) {}

/// A document and a DTD, both parsed.
pub struct Parsed {
    document: Handle,
    dtd: Handle,
    context: Handle,
}

impl Parsed {
    pub fn new(xml: &str, dtd: &str) -> Parsed {
        let text = |text: &str| (text.as_ptr() as *const c_char, text.len() as c_int);
        let ((xml, xml_size), (dtd, dtd_size)) = (text(xml), text(dtd));
        // Both texts live as long as this call, and their lengths are given. The input is freed with the DTD's parser.
        let parsed = unsafe {
            let document = xmlReadMemory(xml, xml_size, null(), null(), 0);
            let input = xmlParserInputBufferCreateMem(dtd, dtd_size, 0);
            Parsed { document, dtd: xmlIOParseDTD(null_mut(), input, 0), context: xmlNewValidCtxt() }
        };
        assert!(!parsed.document.is_null() && !parsed.dtd.is_null() && !parsed.context.is_null(), "libxml2 parses both");
        unsafe { xmlSetStructuredErrorFunc(null_mut(), Some(silent)) };
        parsed
    }

    pub fn is_valid(&mut self) -> bool {
        unsafe { xmlValidateDtd(self.context, self.document, self.dtd) == 1 }
    }
}

impl Drop for Parsed {
    fn drop(&mut self) {
        unsafe {
            xmlFreeValidCtxt(self.context);
            xmlFreeDtd(self.dtd);
            xmlFreeDoc(self.document);
        }
    }
}
