"""What a plugin for a stage is."""

from qiskit.transpiler import PassManager, PassManagerConfig


class PassManagerStagePlugin:
    def pass_manager(self, pass_manager_config: PassManagerConfig, optimization_level: int | None = None) -> PassManager:
        raise NotImplementedError
