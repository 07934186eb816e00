//! Stand-in for `green_kernels`: what an assembler asks of a kernel.

pub mod types {
    /// Values alone, or with derivatives.
    #[derive(Clone, Copy, PartialEq, Eq, Debug)]
    pub enum GreenKernelEvalType {
        Value,
        ValueDeriv,
    }
}

pub mod traits {
    use crate::types::GreenKernelEvalType;
    use rlst::RlstScalar;

    pub trait Kernel {
        type T: RlstScalar;

        /// Source i against target i.
        fn assemble_pairwise_st(
            &self,
            eval_type: GreenKernelEvalType,
            sources: &[<Self::T as RlstScalar>::Real],
            targets: &[<Self::T as RlstScalar>::Real],
            result: &mut [Self::T],
        );

        /// Every source against every target.
        fn assemble_st(
            &self,
            eval_type: GreenKernelEvalType,
            sources: &[<Self::T as RlstScalar>::Real],
            targets: &[<Self::T as RlstScalar>::Real],
            result: &mut [Self::T],
        );
    }
}
