"""The kernel's process, which Jupyter starts."""
from ipykernel.kernelapp import IPKernelApp

from .kernel import RedlogKernel

IPKernelApp.launch_instance(kernel_class=RedlogKernel)
