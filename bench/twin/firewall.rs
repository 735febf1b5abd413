//! The firewall: which accesses code may make to an object.
use crate::exits::{Exception, Exit};
use crate::heap::Header;
use crate::memory::{Installation, Memory};
use crate::packages::Packages;
use crate::platform::AID;
use crate::store::Store;

#[derive(Clone, Copy, PartialEq)]
pub enum Access {
    Element,
    /// Of an instance; or a receiver of `invokespecial`.
    Field,
    VirtualCall,
    InterfaceCall,
    /// By an interface that extends `Shareable`.
    SharedCall,
    Throw,
    /// A test of the type against a class, an interface, and one that extends `Shareable`.
    CastToClass,
    CastToInterface,
    CastToShared,
    /// A reference to it is kept.
    Store,
}

/// A context: that of a package, or the runtime environment's.
type Context = Option<u8>;

impl<S: Store> Memory<S> {
    /// The object belongs to the owner for whom code runs, and may be reached now.
    #[inline(always)]
    pub fn is_own(&self, header: Header) -> bool {
        header.owner == self.registers.active && self.is_in_time(header)
    }

    /// The object is not cleared at a deselection, or code of the selected applet runs.
    #[inline(always)]
    fn is_in_time(&self, header: Header) -> bool {
        let registers = &self.registers;
        !header.is_cleared_by_deselection()
            || registers.active == registers.selected && registers.active != 0 && registers.installation == Installation::Idle
    }

    /// A refused access throws.
    #[inline(always)]
    pub fn allow(&self, access: Access, object: u16, header: Header, linked: &Packages) -> Result<(), Exit> {
        if self.is_own(header) || access == Access::Element && header.is_global() {
            return Ok(());
        }
        self.judge(access, object, linked).map(|_| ())
    }

    /// The owner for whom a method runs that is called on the object, where it is another one.
    #[inline(always)]
    pub fn allow_call(&self, access: Access, object: u16, header: Header, linked: &Packages) -> Result<Option<u16>, Exit> {
        if self.is_own(header) {
            return Ok(None);
        }
        let is_service = access == Access::VirtualCall && header.owner == 0 && !header.is_cleared_by_deselection();
        if is_service && self.registers.active != 0 {
            return Ok(Some(0));
        }
        let switches = self.judge(access, object, linked)?;
        Ok(switches.then_some(header.owner))
    }

    fn context(&self, owner: u16) -> Context {
        match owner {
            0 => None,
            1..=255 => Some(self.package_of(owner).unwrap_or(self.installed())),
            _ => Some(owner as u8),
        }
    }

    /// The package of the applet that is being installed; 0 where none is.
    fn installed(&self) -> u8 {
        match self.registers.installation {
            Installation::Idle => 0,
            Installation::Open { package, .. } | Installation::Registered { package } => package,
        }
    }

    /// The context of the selected applet; the applet that is being installed counts as selected.
    fn selected_context(&self) -> Context {
        match self.registers.installation {
            Installation::Idle => self.context(self.registers.selected),
            Installation::Open { package, .. } | Installation::Registered { package } => Some(package),
        }
    }

    /// Whether a transient array may be made that a deselection clears.
    pub fn may_be_cleared_at_deselection(&self) -> bool {
        let active = self.context(self.registers.active);
        active.is_none() || active == self.selected_context()
    }

    /// The rules: whether the access is a call that goes on in the object's context. A refused access throws.
    #[inline(never)]
    fn judge(&self, access: Access, object: u16, linked: &Packages) -> Result<bool, Exit> {
        let header = self.heap.header(object)?;
        let active = self.context(self.registers.active);
        if active.is_none() {
            return Ok(false);
        }
        let is_own = self.context(header.owner) == active;
        let is_array = !header.is_instance();
        let is_entry = header.owner == 0 && !is_array;
        let is_global = header.owner == 0 && is_array;
        let is_shared = || !is_array && linked.is_shareable(header.class);
        let is_allowed = match access {
            Access::Element => is_own || is_global,
            Access::Field | Access::InterfaceCall | Access::CastToInterface => is_own,
            Access::VirtualCall | Access::CastToClass => is_own || is_entry || is_global,
            Access::SharedCall | Access::CastToShared => is_own || is_shared(),
            Access::Throw => is_own || is_entry,
            Access::Store => {
                let is_kept = header.owner != 0 || is_entry && header.class == AID;
                return if is_kept { Ok(false) } else { Err(Exception::Security.into()) };
            }
        };
        let is_live = !header.is_cleared_by_deselection() || self.selected_context() == active;
        if !is_allowed || !is_live {
            return Err(Exception::Security.into());
        }
        Ok(!is_own && matches!(access, Access::VirtualCall | Access::SharedCall))
    }
}
