# merotunki-config.cmake: find_package(merotunki) reads this. It gives the imported static library merotunki::merotunki,
# the archive for the system and processor that CMake builds for, with its header. Where the package has no such
# archive the package counts as not found, and the message says what was asked for and what there is.
get_filename_component(_merotunki_root "${CMAKE_CURRENT_LIST_DIR}/../../.." ABSOLUTE)

# what is built for, as `system processor`
set(_merotunki_processor "${CMAKE_SYSTEM_PROCESSOR}")
set(_merotunki_asked "${CMAKE_SYSTEM_NAME}")
if(CMAKE_SYSTEM_NAME STREQUAL "Android")
    set(_merotunki_processor "${ANDROID_ABI}") # the NDK's toolchain file sets this, CMake by itself the next
    if(NOT ANDROID_ABI)
        set(_merotunki_processor "${CMAKE_ANDROID_ARCH_ABI}")
    endif()
elseif(CMAKE_SYSTEM_NAME STREQUAL "iOS")
    set(_merotunki_processor "${CMAKE_OSX_ARCHITECTURES}")
    if(NOT CMAKE_OSX_ARCHITECTURES)
        set(_merotunki_processor "arm64")
    endif()
    string(TOLOWER "${CMAKE_OSX_SYSROOT}" _merotunki_sysroot) # a name or a folder of Xcode's
    if(_merotunki_sysroot MATCHES "iphonesimulator")
        set(_merotunki_asked "iOS-simulator")
    endif()
elseif(CMAKE_SIZEOF_VOID_P AND NOT CMAKE_SIZEOF_VOID_P EQUAL 8)
    set(_merotunki_processor "${_merotunki_processor} with pointers of ${CMAKE_SIZEOF_VOID_P} bytes")
endif()
string(APPEND _merotunki_asked " ${_merotunki_processor}")

set(_merotunki_target "")
if(_merotunki_asked MATCHES "^Linux (aarch64|arm64)$")
    set(_merotunki_target linux-arm64)
elseif(_merotunki_asked MATCHES "^Linux (x86_64|amd64|AMD64)$")
    set(_merotunki_target linux-x86-64)
elseif(_merotunki_asked STREQUAL "Android arm64-v8a")
    set(_merotunki_target android-arm64)
elseif(_merotunki_asked STREQUAL "Android x86_64")
    set(_merotunki_target android-x86-64)
elseif(_merotunki_asked STREQUAL "iOS arm64")
    set(_merotunki_target ios-arm64)
elseif(_merotunki_asked STREQUAL "iOS-simulator arm64")
    set(_merotunki_target ios-simulator-arm64)
endif()

if(_merotunki_target)
    set(merotunki_FOUND TRUE)
    if(NOT TARGET merotunki::merotunki)
        add_library(merotunki::merotunki STATIC IMPORTED)
        set_target_properties(merotunki::merotunki PROPERTIES
            IMPORTED_LOCATION "${_merotunki_root}/lib/${_merotunki_target}/libmerotunki.a"
            INTERFACE_INCLUDE_DIRECTORIES "${_merotunki_root}/include")
    endif()
else()
    set(merotunki_FOUND FALSE)
    set(merotunki_NOT_FOUND_MESSAGE "merotunki @VERSION@ has no library for ${_merotunki_asked}. It has one for Linux \
(aarch64, x86_64), Android (arm64-v8a, x86_64), iOS (arm64) and the iOS simulator (arm64).")
endif()

unset(_merotunki_root)
unset(_merotunki_processor)
unset(_merotunki_asked)
unset(_merotunki_sysroot)
unset(_merotunki_target)
