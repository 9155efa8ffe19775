// swift-tools-version:5.5
// The engine as a Swift package: the XCFramework beside this file, for iOS, its simulator and macOS. `import Engine` gives
// the calls of engine.h.
import PackageDescription

let package = Package(
    name: "Engine",
    platforms: [.iOS(.v15), .macOS(.v12)],
    products: [.library(name: "Engine", targets: ["Engine"])],
    targets: [.binaryTarget(name: "Engine", path: "Engine.xcframework")]
)
