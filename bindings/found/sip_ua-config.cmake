# sip_ua::sip_ua is the shared library, sip_ua::static the archive.
get_filename_component(_sip_ua_prefix "${CMAKE_CURRENT_LIST_DIR}/../../.." ABSOLUTE)
if(NOT TARGET sip_ua::sip_ua)
  add_library(sip_ua::sip_ua SHARED IMPORTED)
  set_target_properties(sip_ua::sip_ua PROPERTIES
    IMPORTED_LOCATION "${_sip_ua_prefix}/lib/libsip_ua.so.@VERSION@"
    IMPORTED_SONAME "libsip_ua.so.@MAJOR@"
    INTERFACE_INCLUDE_DIRECTORIES "${_sip_ua_prefix}/include")
  add_library(sip_ua::static STATIC IMPORTED)
  set_target_properties(sip_ua::static PROPERTIES
    IMPORTED_LOCATION "${_sip_ua_prefix}/lib/libsip_ua.a"
    INTERFACE_INCLUDE_DIRECTORIES "${_sip_ua_prefix}/include")
endif()
unset(_sip_ua_prefix)
