// SPDX-License-Identifier: MIT OR Apache-2.0
//! Calls and answers by their names.
use crate::operation::{registers, Answer, Registers};
use core::fmt;

macro_rules! functions {
    ($($number:literal $variant:ident $name:literal,)*) => {
        /// What w0 of a call or of an answer holds. A name that ends in 64 is that of a call's 64-bit form.
        #[derive(Clone, Copy, Debug, PartialEq, Eq, PartialOrd, Ord, Hash)]
        #[repr(u32)]
        pub enum Function {
            $(#[doc = concat!("`", stringify!($number), "`, ", $name)] $variant = $number,)*
        }

        impl Function {
            /// All of them, by their lowest bits, the 32-bit form first.
            pub const ALL: &'static [Function] = &[$(Function::$variant),*];

            /// The one with this number, if there is one.
            #[must_use]
            pub const fn of(number: u32) -> Option<Function> {
                match number {
                    $($number => Some(Function::$variant),)*
                    _ => None,
                }
            }

            /// The standard's name, which both forms of a call have.
            #[must_use]
            pub const fn name(self) -> &'static str {
                match self {
                    $(Function::$variant => $name,)*
                }
            }
        }
    };
}

functions! {
    0x8400_0060 Error "FFA_ERROR",
    0x8400_0061 Success "FFA_SUCCESS",
    0xC400_0061 Success64 "FFA_SUCCESS",
    0x8400_0062 Interrupt "FFA_INTERRUPT",
    0x8400_0063 Version "FFA_VERSION",
    0x8400_0064 Features "FFA_FEATURES",
    0x8400_0065 RxRelease "FFA_RX_RELEASE",
    0x8400_0066 RxtxMap "FFA_RXTX_MAP",
    0xC400_0066 RxtxMap64 "FFA_RXTX_MAP",
    0x8400_0067 RxtxUnmap "FFA_RXTX_UNMAP",
    0x8400_0068 PartitionInfoGet "FFA_PARTITION_INFO_GET",
    0x8400_0069 IdGet "FFA_ID_GET",
    0x8400_006B MsgWait "FFA_MSG_WAIT",
    0x8400_006C Yield "FFA_YIELD",
    0x8400_006D Run "FFA_RUN",
    0x8400_006F MsgSendDirectReq "FFA_MSG_SEND_DIRECT_REQ",
    0xC400_006F MsgSendDirectReq64 "FFA_MSG_SEND_DIRECT_REQ",
    0x8400_0070 MsgSendDirectResp "FFA_MSG_SEND_DIRECT_RESP",
    0xC400_0070 MsgSendDirectResp64 "FFA_MSG_SEND_DIRECT_RESP",
    0x8400_0071 MemDonate "FFA_MEM_DONATE",
    0xC400_0071 MemDonate64 "FFA_MEM_DONATE",
    0x8400_0072 MemLend "FFA_MEM_LEND",
    0xC400_0072 MemLend64 "FFA_MEM_LEND",
    0x8400_0073 MemShare "FFA_MEM_SHARE",
    0xC400_0073 MemShare64 "FFA_MEM_SHARE",
    0x8400_0074 MemRetrieveReq "FFA_MEM_RETRIEVE_REQ",
    0xC400_0074 MemRetrieveReq64 "FFA_MEM_RETRIEVE_REQ",
    0x8400_0075 MemRetrieveResp "FFA_MEM_RETRIEVE_RESP",
    0x8400_0076 MemRelinquish "FFA_MEM_RELINQUISH",
    0x8400_0077 MemReclaim "FFA_MEM_RECLAIM",
    0x8400_007D NotificationBitmapCreate "FFA_NOTIFICATION_BITMAP_CREATE",
    0x8400_007E NotificationBitmapDestroy "FFA_NOTIFICATION_BITMAP_DESTROY",
    0x8400_007F NotificationBind "FFA_NOTIFICATION_BIND",
    0x8400_0080 NotificationUnbind "FFA_NOTIFICATION_UNBIND",
    0x8400_0081 NotificationSet "FFA_NOTIFICATION_SET",
    0x8400_0082 NotificationGet "FFA_NOTIFICATION_GET",
    0x8400_0083 NotificationInfoGet "FFA_NOTIFICATION_INFO_GET",
    0xC400_0083 NotificationInfoGet64 "FFA_NOTIFICATION_INFO_GET",
    0x8400_0085 SpmIdGet "FFA_SPM_ID_GET",
    0x8400_0086 MsgSend2 "FFA_MSG_SEND2",
}

impl Function {
    /// What w0 holds of it.
    #[must_use]
    pub const fn number(self) -> u32 {
        self as u32
    }

    /// Whether it is the 64-bit form of a call.
    #[must_use]
    pub const fn is_wide(self) -> bool {
        self.number() & 0x4000_0000 != 0
    }

    /// Registers with its number in x0, of which x1 and the next ones are given, and the others are zero.
    ///
    /// ```
    /// # use gorseplumb::*;
    /// const RUN: Registers = Function::Run.with([0x8001_0000]);
    /// assert_eq!(RUN, registers([0x8400_006D, 0x8001_0000]));
    /// ```
    ///
    /// There are seven beside x0, and more aren't compiled:
    ///
    /// ```compile_fail,E0080
    /// # use gorseplumb::*;
    /// const EIGHT: Registers = Function::Run.with([0; 8]);
    /// # let _ = EIGHT;
    /// ```
    #[must_use]
    pub const fn with<const N: usize>(self, given: [u64; N]) -> Registers {
        assert!(N <= 7, "there are seven registers beside x0");
        let mut all = registers([self.number() as u64]);
        let mut place = 0;
        while place < N {
            all[place + 1] = given[place];
            place += 1;
        }
        all
    }
}

/// The standard's name.
impl fmt::Display for Function {
    fn fmt(&self, to: &mut fmt::Formatter<'_>) -> fmt::Result {
        to.pad(self.name())
    }
}

impl Answer {
    /// What w0 of the answer names. None: where the next runner goes on from no answer, it is whatever it had there.
    #[must_use]
    pub fn function(&self) -> Option<Function> {
        self.registers().and_then(|registers| Function::of(registers[0] as u32))
    }
}
